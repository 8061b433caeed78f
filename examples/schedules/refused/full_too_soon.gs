gcschedule 1
# A heap with a free cell is called full.
# cells, packets, entries, sections, fields, seats
shape 64 2 2 2 1 2

# seat 0 has the catalogue: it stops the world, turns the season to the warehouses' turn, resumes the world and leaves
0 raise_step
0 observe
0 next_season
0 drop_step
0 leave_step

# seat 1 has section 1: it enters, reads that it is its turn, and claims block 0 to make cells in
1 enter_step
1 read_season
1 claim_block 0
1 read_free

# it makes cell 0, its object 0: a nil field, the value 5, and section and number
1 store_new 0 0 0
1 store_new 0 1 5
1 store_new 0 2 4294967296
# variable 0 names it
1 store_root 0 1

# it publishes its cells with one atomic or into the block's allocation word, and gives the block up
1 publish_cells
1 release_block

# it leaves, stops the world, marks from nothing, and sweeps
1 leave_step

# it raises the flag, reads that no seat is counted, and moves to Drain
1 raise_step
1 observe
1 store_phase 2

# seat 1 announces that it takes an empty packet, takes packet 0, and reads its length, 0
1 reserve
1 take 0 0
1 read_length 0

# it loads variable 0 of section 1, marks cell 0, and puts it into packet 0: the cell is grey
1 read_root 1 0
1 set_mark 0
1 push 0 0

# it takes cell 0 from the packet, sees that it is published, and loads its field: the cell is black
1 pop 0
1 read_alloc 0
1 read_field 0 0

# the packet is empty again: seat 1 stores its length, gives it back, and counts it
1 store_length 0
1 give 0 0
1 credit

1 store_phase 3
1 read_stat 1
1 next_block
1 read_alloc 0
1 read_block_marks
1 store_alloc
1 clear_marks
1 store_phase 0
1 store_named
# 63 cells are free: refused
1 store_phase 5
