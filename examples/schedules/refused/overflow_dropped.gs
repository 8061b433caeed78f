gcschedule 1
# A packet overflows, and the cell that had no room is left in hand.
# cells, packets, entries, sections, fields, seats
shape 64 2 2 2 1 3

# seat 0 has the catalogue: it stops the world, turns the season to the warehouses' turn, resumes the world and leaves
0 raise_step
0 observe
0 next_season
0 drop_step
0 leave_step

# seat 1 has section 1: it enters, reads that it is its turn, and claims block 0 to make cells in
1 enter_step
1 read_season
1 claim_block 0
1 read_free

# it makes cell 0, its object 0: a nil field, the value 5, and section and number
1 store_new 0 0 0
1 store_new 0 1 5
1 store_new 0 2 4294967296
# variable 0 names it
1 store_root 0 1

# it makes cell 1, its object 1: a nil field, the value 5, and section and number
1 store_new 1 0 0
1 store_new 1 1 5
1 store_new 1 2 4294967297
# variable 1 names it
1 store_root 1 2

# it makes cell 2, its object 2: a nil field, the value 5, and section and number
1 store_new 2 0 0
1 store_new 2 1 5
1 store_new 2 2 4294967298
# variable 2 names it
1 store_root 2 3

# it publishes its cells with one atomic or into the block's allocation word, and gives the block up
1 publish_cells
1 release_block

# it begins marking, and seat 2, a tracer, enters and reads the phase
1 store_phase 1
2 enter_step
2 read_phase

# seat 2 announces that it takes an empty packet, takes packet 0, and reads its length, 0
2 reserve
2 take 0 0
2 read_length 0

# it loads variable 0 of section 1, marks cell 0, and puts it into packet 0: the cell is grey
2 read_root 1 0
2 set_mark 0
2 push 0 0

# it loads variable 1 of section 1, marks cell 1, and puts it into packet 0: the cell is grey
2 read_root 1 1
2 set_mark 1
2 push 0 1

# the packet is full. The tracer loads variable 2 and marks cell 2, which has no room now
2 read_root 1 2
2 set_mark 2

# cell 2 is in hand, and the tracer goes on with another cell before it has put cell 2 anywhere: refused
2 pop 0
