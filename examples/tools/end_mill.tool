# A flat end mill of 6 mm with a neck, in a collet holder. Heights are over the tip.
shape flat
diameter 6
cutting-length 14
radius-above 2.8          # the neck, ground back
neck-length 10
radius-above-neck 3       # the shank
stickout 38
holder 38 44 9 12         # low z, high z, low radius, high radius
holder 44 70 12 12
