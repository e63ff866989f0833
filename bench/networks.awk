# Writes LOADs of made networks of the largest size: 8,192 links among 1,024 routers, with
# capacities from 1 to 1,000, drawn by a linear congruence. usage: awk -v loads=N -f networks.awk
function draw() {
    state = (75 * state + 74) % 65537
    return state
}

BEGIN {
    for (load = 1; load <= loads; load++) {
        state = load
        print "LOAD"
        for (link = 1; link <= 8192; link++) {
            a = draw() % 1024
            b = draw() % 1024
            print "link router-" a " router-" b " " draw() % 1000 + 1
        }
        print "END"
    }
}
