# Writes a session that loads the network on its input, without LOAD and with END, and makes so many
# requests of one word, each for two different routers that are drawn, where the word takes any. With
# FIRST each is for this router, the first of the network, and a drawn one.
# usage: awk -v word=WORD -v count=N [-v first=FIRST] -f requests.awk NETWORK
function draw() {
    state = state * 16807 % 2147483647
    return state
}

# Notes a router that may be new.
function note(name) {
    if (!(name in known)) {
        known[name] = 1
        names[routers++] = name
    }
}

BEGIN {
    state = 7
    print "LOAD"
}

{
    print
}

$1 == "router" || $1 == "link" {
    note($2)
}

$1 == "link" {
    note($3)
}

END {
    for (i = 0; i < count; i++) {
        if (word == "WEAKEST" || word == "CERTIFICATE") {
            print word
            continue
        }
        a = first == "" ? draw() % routers : 0
        b = (a + 1 + draw() % (routers - 1)) % routers
        print word " " names[a] " " names[b]
    }
    print "BYE"
}
