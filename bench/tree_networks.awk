# Writes the text of one network for which trees are timed, without LOAD. Capacities and random links
# are drawn by a linear congruence from a seed.
# usage: awk -v kind=KIND [-v seed=N] -f tree_networks.awk
#   random_ROUTERS_LINKS  each link joins two routers that are drawn
#   unit_ROUTERS_LINKS    the same, with all capacities 1
#   power_ROUTERS_EACH    a power law: EACH routers in a ring, and each further router linked to so
#                         many earlier ones, drawn by their numbers of links (Barabasi and Albert,
#                         1999)
#   dense_ROUTERS         each two routers are linked
#   backbone              a core of 32 routers, 31 metro rings of 8, and 3 access routers for each
#                         router of a metro ring; capacities in megabits per second
#   rmf_WIDTH_DEPTH       frames of WIDTH by WIDTH routers with wide links, so many in a row, each
#                         router linked by a narrow one to a router of the next frame, as a
#                         permutation that is drawn says (Goldberg and Grigoriadis, 1988)
#   grid                  32 rows of 32 routers, each linked to its neighbours
#   star                  1,023 leaves about the first router
#   chain                 1,024 routers in a row
#   narrow_chain          the same, where each link is wider than the one before it
#   chords                a ring of 1,024 routers, and 1,024 links that are drawn
#   clusters              511 clusters of three routers in a row, each with one router in common with
#                         the next, a short narrow way through it and a wider one of two links; of
#                         the narrow ones no two are alike. LEMON's push-relabel method takes long
#   necklace              the same, numbered from the far end, with narrow ways that widen towards the
#                         first router, so that most routers are cut from it by flows along the row,
#                         which take many phases of Dinic's method
#   towns                 four towns and three customers, with names of their own
function draw() {
    state = (75 * state + 74) % 65537
    return state
}

function capacity() {
    return draw() % 1000 + 1
}

function routers(count) {
    for (i = 0; i < count; i++) {
        print "router r" i
    }
}

function join(a, b, amount) {
    print "link r" a " r" b " " amount
}

# Links drawn at random.
function random(count, links, is_unit) {
    routers(count)
    for (i = 0; i < links; i++) {
        a = draw() % count
        b = draw() % count
        join(a, b, is_unit ? 1 : capacity())
    }
}

# Links whose ends are noted, so that a router is drawn by its number of links.
function join_noted(a, b) {
    join(a, b, capacity())
    ends[end_count++] = a
    ends[end_count++] = b
}

# A power law: each router but the first few is linked to so many earlier ones.
function power(count, each) {
    routers(count)
    for (i = 0; i < each; i++) {
        join_noted(i, (i + 1) % each)
    }
    for (i = each; i < count; i++) {
        for (k = 0; k < each; k++) {
            do {
                drawn[k] = ends[draw() % end_count]
            } while (taken[drawn[k]] == i)
            taken[drawn[k]] = i
        }
        for (k = 0; k < each; k++) {
            join_noted(i, drawn[k])
        }
    }
}

# A link between each two routers.
function dense(count) {
    routers(count)
    for (i = 0; i < count; i++) {
        for (k = i + 1; k < count; k++) {
            join(i, k, capacity())
        }
    }
}

# The k-th router of a metro ring: its first and its ninth are core routers that lie side by side.
function on_ring(ring, k) {
    if (k == 0 || k == 9) {
        return (ring + k / 9) % 32
    }
    return 32 + 8 * ring + k - 1
}

# Three access routers at a router of a metro ring: two are linked to the next router of the ring too.
function access_at(ring, k) {
    for (i = 0; i < 3; i++) {
        router = 280 + 24 * ring + 3 * (k - 1) + i
        join(router, on_ring(ring, k), draw() % 2 ? 10000 : 1000)
        if (i < 2) {
            join(router, on_ring(ring, k + 1), draw() % 2 ? 10000 : 1000)
        }
    }
}

# A backbone in two levels, with access routers.
function backbone() {
    routers(1024)
    for (i = 0; i < 32; i++) {
        join(i, (i + 1) % 32, 400000)
        join(i, (i + 9) % 32, draw() % 2 ? 400000 : 200000)
    }
    for (ring = 0; ring < 31; ring++) {
        for (k = 0; k < 9; k++) {
            join(on_ring(ring, k), on_ring(ring, k + 1), 100000)
        }
        for (k = 1; k < 9; k++) {
            access_at(ring, k)
        }
    }
}

# A permutation of so many numbers from 0 on.
function permute(count) {
    for (i = 0; i < count; i++) {
        k = draw() % (i + 1)
        place[i] = place[k]
        place[k] = i
    }
}

# Frames in a row.
function rmf(width, depth) {
    size = width * width
    routers(size * depth)
    for (frame = 0; frame < depth; frame++) {
        grid_from(frame * size, width, size * 1000)
        if (frame < depth - 1) {
            permute(size)
            for (i = 0; i < size; i++) {
                join(frame * size + i, (frame + 1) * size + place[i], capacity())
            }
        }
    }
}

# A square grid of routers from a number on; where no amount is given, capacities are drawn.
function grid_from(from, width, amount) {
    for (i = 0; i < width * width; i++) {
        if (i % width < width - 1) {
            join(from + i, from + i + 1, amount ? amount : capacity())
        }
        if (i + width < width * width) {
            join(from + i, from + i + width, amount ? amount : capacity())
        }
    }
}

# A square grid.
function grid(width) {
    routers(width * width)
    grid_from(0, width)
}

# Leaves about the first router.
function star() {
    routers(1024)
    for (i = 1; i < 1024; i++) {
        join(0, i, capacity())
    }
}

# Routers in a row.
function chain(widens) {
    routers(1024)
    for (i = 1; i < 1024; i++) {
        join(i - 1, i, widens ? i : capacity())
    }
}

# A ring with chords.
function chords() {
    routers(1024)
    for (i = 0; i < 1024; i++) {
        join(i, (i + 1) % 1024, capacity())
    }
    for (i = 0; i < 1024; i++) {
        a = draw() % 1024
        b = draw() % 1024
        join(a, b, capacity())
    }
}

# Clusters in a row that begins at the first router.
function clusters() {
    routers(1023)
    for (i = 0; i < 511; i++) {
        join(2 * i, 2 * i + 2, 1 + i * 97 % 511)
        join(2 * i, 2 * i + 1, 1000)
        join(2 * i + 1, 2 * i + 2, 1000)
    }
}

# Clusters in a row that ends at the first router.
function necklace() {
    routers(1023)
    for (i = 0; i < 511; i++) {
        next_one = i < 510 ? 2 * i + 3 : 0
        join(2 * i + 1, next_one, i + 1)
        join(2 * i + 1, 2 * i + 2, 1000)
        join(2 * i + 2, next_one, 1000)
    }
}

# A small backbone, with capacities in megabits per second.
function towns() {
    print "link lon ams 400000"
    print "link ams fra 400000"
    print "link fra par 400000"
    print "link par lon 400000"
    print "link lon fra 200000"
    print "link edge-1 lon 100000"
    print "link edge-1 ams 100000"
    print "link edge-2 fra 100000"
    print "link edge-2 par 100000"
    print "link edge-3 par 40000"
}

BEGIN {
    state = seed == "" ? 7 : seed
    split(kind, part, "_")
    if (part[1] == "random") {
        random(part[2], part[3], 0)
    } else if (part[1] == "unit") {
        random(part[2], part[3], 1)
    } else if (part[1] == "power") {
        power(part[2], part[3])
    } else if (part[1] == "dense") {
        dense(part[2])
    } else if (part[1] == "rmf") {
        rmf(part[2], part[3])
    } else if (kind == "backbone") {
        backbone()
    } else if (kind == "grid") {
        grid(32)
    } else if (kind == "star") {
        star()
    } else if (kind == "chain") {
        chain(0)
    } else if (kind == "narrow_chain") {
        chain(1)
    } else if (kind == "chords") {
        chords()
    } else if (kind == "clusters") {
        clusters()
    } else if (kind == "necklace") {
        necklace()
    } else if (kind == "towns") {
        towns()
    } else {
        print "no network is called " kind >"/dev/stderr"
        exit 1
    }
    print "END"
}
