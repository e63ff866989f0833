# Writes LOADs of the largest texts: 8,192 links among 1,024 routers, with names of 32 bytes and
# capacities of 12 digits, drawn by a linear congruence. usage: awk -v loads=N -f largest_texts.awk
function draw() {
    state = (75 * state + 74) % 65537
    return state
}

function name(router) {
    return sprintf("router-%04d.%020d", router, router)
}

BEGIN {
    for (load = 1; load <= loads; load++) {
        state = load
        print "LOAD"
        for (link = 1; link <= 8192; link++) {
            a = link <= 1024 ? link - 1 : draw() % 1024
            b = draw() % 1024
            printf "link %s %s %.0f\n", name(a), name(b), 900000000000 + draw() * 1000003
        }
        print "END"
    }
}
