# The scripts that the benches play: each function writes one. Sourced, not run.

# Eight warehouses, each with 5,000 orders of ten lines that refer to the line before and to the first item of a catalogue of 200.
orders() {
    printf 'gcscript 1\ncatalogue\nnew first 1\nlet last first\nrepeat 199\nnew item 2\nset last 0 item\nlet last item\nend\n'
    for _warehouse in 1 2 3 4 5 6 7 8; do
        printf 'warehouse\ncat item first\nnil order\nrepeat 5000\nnil order\n'
        for _line in 1 2 3 4 5 6 7 8 9 10; do
            printf 'new line 3\nset line 0 order\nset line 1 item\nlet order line\n'
        done
        printf 'end\nsum stock item 0 1000\nsum lines order 0 100\n'
    done
}

# A script that the program makes from a number: four warehouses with 20,000 lines each.
load() {
    "$program" gen --number 7 --size 20000
}

# Eight warehouses, each with 3,750 objects that stay (250 customers in a row, each with 14 objects of its own), and then 115,000 objects that are
# kept only until the next one is made. In the end nothing stays, so that little is written.
live() {
    printf 'gcscript 1\n'
    for _warehouse in 1 2 3 4 5 6 7 8; do
        printf 'warehouse\nnil customers\nrepeat 250\nnew customer 1\nset customer 0 customers\nlet customers customer\n'
        for field in 1 2; do
            printf 'nil pages\n'
            for _page in 1 2 3 4 5 6 7; do printf 'new page 2\nset page 0 pages\nlet pages page\n'; done
            printf 'set customer %s pages\n' "$field"
        done
        printf 'end\nrepeat 115000\nnew visit 3\nset visit 0 customers\nend\nsum row customers 0 1000\nnil customers\nnil customer\nnil pages\nnil page\nnil visit\n'
    done
}

# 30,000 objects in a row that stay, so that the text has a line for each.
survivors() {
    printf 'gcscript 1\nwarehouse\nnil last\nrepeat 30000\nnew x 1\nset x 0 last\nlet last x\nend\n'
}

# So many warehouses, which together make 320,000 objects, each with two stores and kept by the next ten.
shares() {
    printf 'gcscript 1\n'
    warehouse=0
    while [ "$warehouse" -lt "$1" ]; do
        printf 'warehouse\nrepeat %s\nnil order\n' $((32000 / $1))
        for _line in 1 2 3 4 5 6 7 8 9 10; do printf 'new line 3\nset line 0 order\nset line 1 line\nlet order line\n'; done
        printf 'end\n'
        warehouse=$((warehouse + 1))
    done
}

# So many objects, each kept only until the next one is made.
objects() {
    printf 'gcscript 1\nwarehouse\nrepeat %s\nnew x 1\nend\n' "$1"
}

# Eight warehouses, each with a ring of 200 objects that are published, since more are made after them, and 230,000 stores into them.
stores() {
    printf 'gcscript 1\n'
    for _warehouse in 1 2 3 4 5 6 7 8; do
        printf 'warehouse\nnew first 1\nlet last first\nrepeat 199\nnew next 2\nset next 0 last\nlet last next\nend\nset first 0 last\n'
        printf 'repeat 64\nnew x 3\nend\nnil x\nrepeat 46000\nset last 1 first\nset last 2 next\nset first 1 last\nset first 2 last\nget last last 0\nend\n'
    done
}

# Eight warehouses, each with a ring of 200 objects along which it reads.
reads() {
    printf 'gcscript 1\n'
    for _warehouse in 1 2 3 4 5 6 7 8; do
        printf 'warehouse\nnew first 1\nlet last first\nrepeat 199\nnew next 2\nset next 0 last\nlet last next\nend\nset first 0 last\n'
        printf 'repeat 46000\nget a last 0\nget b a 0\nget c b 0\nget d c 0\nget last d 0\nend\n'
    done
}

# How many commands a script executes, as it is written here: repeats aren't nested.
commands_in() {
    awk '$1 == "repeat" { times = $2; next } $1 == "end" { times = 0; next }
        $1 == "gcscript" || $1 == "catalogue" || $1 == "warehouse" { next }
        NF > 0 { sum += times ? times : 1 } END { print sum }' "$1"
}
