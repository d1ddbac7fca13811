# For checks that run the program: where it isn't built they fail at once, and don't build it. `am2` is the program itself; bin/am2 answers some words before it.
am2=crates/am2/out/am2
[ -x "$am2" ] || { echo "am2 isn't built: rt ci builds it, and so does bin/am2"; exit 1; }
