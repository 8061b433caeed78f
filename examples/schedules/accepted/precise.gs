gcschedule 1
# A precise collection: all marks are cleared, and marking is done again in the stop.
# cells, packets, entries, sections, fields, seats
shape 64 2 2 2 1 3

# seat 0 has the catalogue: it stops the world, turns the season to the warehouses' turn, resumes the world and leaves
0 raise_step
0 observe
0 next_season
0 drop_step
0 leave_step

# seat 1 has section 1: it enters, reads that it is its turn, and claims block 0 to make cells in
1 enter_step
1 read_season
1 claim_block 0
1 read_free

# it makes cell 0, its object 0: a nil field, the value 5, and section and number
1 store_new 0 0 0
1 store_new 0 1 5
1 store_new 0 2 4294967296
# variable 0 names it
1 store_root 0 1

# it makes cell 1, its object 1: a nil field, the value 5, and section and number
1 store_new 1 0 0
1 store_new 1 1 5
1 store_new 1 2 4294967297
# variable 1 names it
1 store_root 1 2

# it publishes its cells with one atomic or into the block's allocation word, and gives the block up
1 publish_cells
1 release_block

# it begins marking, and seat 2, a tracer, enters and reads the phase
1 store_phase 1
2 enter_step
2 read_phase

# seat 2 announces that it takes an empty packet, takes packet 0, and reads its length, 0
2 reserve
2 take 0 0
2 read_length 0

# it loads variable 0 of section 1, marks cell 0, and puts it into packet 0: the cell is grey
2 read_root 1 0
2 set_mark 0
2 push 0 0

# it loads variable 1 of section 1, marks cell 1, and puts it into packet 0: the cell is grey
2 read_root 1 1
2 set_mark 1
2 push 0 1

# it takes cell 1 from the packet, sees that it is published, and loads its field: the cell is black
2 pop 0
2 read_alloc 0
2 read_field 1 0

# it takes cell 0 from the packet, sees that it is published, and loads its field: the cell is black
2 pop 0
2 read_alloc 0
2 read_field 0 0

# the packet is empty again: seat 2 stores its length, gives it back, and counts it
2 store_length 0
2 give 0 0
2 credit

# now that cell 1 is marked, seat 1 forgets it: nothing leads to it any more
1 store_root 1 0
2 leave_step
1 leave_step

# seat 1 stops the world: it raises the flag, reads that no seat is counted, and moves to Drain
1 raise_step
1 observe
1 store_phase 2

# it moves to Clear instead of sweeping
1 store_phase 4
# it reads that a block is left, takes it, and clears its marks
1 read_stat 1
1 next_block
1 clear_marks
# no cell is marked: it drains again, from nothing, and so exactly
1 store_phase 2
# the block counter begins again for the sweep
1 reset 1

# seat 1 announces that it takes an empty packet, takes packet 0, and reads its length, 0
1 reserve
1 take 0 0
1 read_length 0

# it loads variable 0 of section 1, marks cell 0, and puts it into packet 0: the cell is grey
1 read_root 1 0
1 set_mark 0
1 push 0 0

# it takes cell 0 from the packet, sees that it is published, and loads its field: the cell is black
1 pop 0
1 read_alloc 0
1 read_field 0 0

# variable 1 is nil
1 read_root 1 1

# the packet is empty again: seat 1 stores its length, gives it back, and counts it
1 store_length 0
1 give 0 0
1 credit

# cell 0 alone is marked, and the sweep begins
1 store_phase 3

# it reads that a block is left, takes it, and reads its allocation bits and its marks
1 read_stat 1
1 next_block
1 read_alloc 0
1 read_block_marks
# cell 0 is marked and stays, and cell 1 is freed
1 store_alloc
1 clear_marks
# the cycle ends, and the world goes on
1 store_phase 0
1 drop_step
