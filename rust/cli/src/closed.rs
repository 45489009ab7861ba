//! Edges without a partner. A lost triangle shows there, even if the count was mended to fit.
use mandrikelo::Mesh;
use std::collections::HashMap;

/// How many edges belong to an odd number of triangles; of a closed surface, none. Corners are one where all their bits are, -0 taken
/// for 0; an edge from a corner to itself is none.
pub fn edges_without_partner(mesh: &Mesh) -> u64 {
    let mut corners: HashMap<[u64; 3], u32> = HashMap::with_capacity(mesh.len());
    let mut edges: Vec<u64> = Vec::with_capacity(3 * mesh.len());
    for triangle in mesh.triangles() {
        let mut ids = [0u32; 3];
        for (id, corner) in ids.iter_mut().zip(triangle.chunks_exact(3)) {
            let next = corners.len() as u32;
            let key = [corner[0], corner[1], corner[2]].map(|x| (x + 0.0).to_bits());
            *id = *corners.entry(key).or_insert(next);
        }
        for k in 0..3 {
            let (a, b) = (ids[k], ids[(k + 1) % 3]);
            if a != b {
                edges.push(u64::from(a.min(b)) << 32 | u64::from(a.max(b)));
            }
        }
    }
    edges.sort_unstable();
    let mut odd = 0;
    let mut at = 0;
    while at < edges.len() {
        let same = edges[at..].iter().take_while(|edge| **edge == edges[at]).count();
        odd += (same % 2) as u64;
        at += same;
    }
    odd
}

#[cfg(test)]
mod tests {
    use super::*;

    #[test]
    fn a_tetrahedron_and_a_lost_triangle() {
        let corners = [[0., 0., 0.], [1., 0., 0.], [0., 1., 0.], [0., 0., 1.]];
        let faces = [[0, 2, 1], [0, 1, 3], [0, 3, 2], [1, 2, 3]];
        let mut numbers: Vec<f64> = faces.iter().flatten().flat_map(|k| corners[*k as usize]).collect();
        assert_eq!(edges_without_partner(&Mesh::from_numbers(numbers.clone())), 0);
        numbers[0] = -0.0;
        assert_eq!(edges_without_partner(&Mesh::from_numbers(numbers.clone())), 0);
        numbers.truncate(27);
        assert_eq!(edges_without_partner(&Mesh::from_numbers(numbers)), 3);
    }
}
