# Writes the network that a seed makes as a network text: a `router` line for each router, in number order, a `link`
# line for each link, and END. Each link takes three draws, for its two ends and its capacity; awk's numbers are exact
# up to 2^53, and none here is above 75 * 65536 + 74.
# usage: awk -v seed=S -v routers=N -v links=M -f examples/made_network.awk
# The seed is at most 65535; the `links` of seed=7 routers=3 links=3 are `r2 r2 613`, `r0 r2 743` and `r1 r0 355`.
function draw() {
    state = (75 * state + 74) % 65537
    return state
}

BEGIN {
    state = seed
    for (router = 0; router < routers; router++)
        print "router r" router
    for (link = 1; link <= links; link++) {
        first = draw() % routers
        second = draw() % routers
        print "link r" first " r" second " " draw() % 1000 + 1
    }
    print "END"
}
