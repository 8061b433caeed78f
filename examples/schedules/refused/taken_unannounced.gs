gcschedule 1
# An empty packet is taken without being announced.
# cells, packets, entries, sections, fields, seats
shape 64 2 2 2 1 3

# seat 0 has the catalogue: it stops the world, turns the season to the warehouses' turn, resumes the world and leaves
0 raise_step
0 observe
0 next_season
0 drop_step
0 leave_step

# seat 1 has section 1: it enters, reads that it is its turn, and claims block 0 to make cells in
1 enter_step
1 read_season
1 claim_block 0
1 read_free

# it makes cell 0, its object 0: a nil field, the value 5, and section and number
1 store_new 0 0 0
1 store_new 0 1 5
1 store_new 0 2 4294967296
# variable 0 names it
1 store_root 0 1

# it publishes its cells with one atomic or into the block's allocation word, and gives the block up
1 publish_cells
1 release_block

# it begins marking, and seat 2, a tracer, enters and reads the phase
1 store_phase 1
2 enter_step
2 read_phase

# the count would still say that all packets are empty while the tracer fills this one: refused
2 take 0 0
