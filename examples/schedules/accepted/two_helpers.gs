gcschedule 1
# A stop with two helpers.
# cells, packets, entries, sections, fields, seats
shape 64 4 2 2 1 4

# seat 0 has the catalogue: it stops the world, turns the season to the warehouses' turn, resumes the world and leaves
0 raise_step
0 observe
0 next_season
0 drop_step
0 leave_step

# seat 1 has section 1: it enters, reads that it is its turn, and claims block 0 to make cells in
1 enter_step
1 read_season
1 claim_block 0
1 read_free

# it makes cell 0, its object 0: a nil field, the value 5, and section and number
1 store_new 0 0 0
1 store_new 0 1 5
1 store_new 0 2 4294967296
# variable 0 names it
1 store_root 0 1

# it makes cell 1, its object 1: a nil field, the value 5, and section and number
1 store_new 1 0 0
1 store_new 1 1 5
1 store_new 1 2 4294967297
# variable 1 names it
1 store_root 1 2

# it publishes its cells with one atomic or into the block's allocation word, and gives the block up
1 publish_cells
1 release_block

# it leaves, and stops the world
1 leave_step

# it raises the flag, reads that no seat is counted, and moves to Drain
1 raise_step
1 observe
1 store_phase 2

# it opens help, and isn't alone from here on
1 open_step

# seat 2 joins, is admitted since help is open, and reads the phase
2 join_help_step
2 read_phase

# seat 3 joins, is admitted since help is open, and reads the phase
3 join_help_step
3 read_phase

# they take a packet each, announced one after the other
2 reserve
3 reserve
2 take 0 0
3 take 0 1
2 read_length 0
3 read_length 1
# each loads a root and marks its cell, side by side
2 read_root 1 0
3 read_root 1 1
2 set_mark 0
3 set_mark 1
2 push 0 0
3 push 1 1
# each takes its cell, sees that it is published, and loads its field
2 pop 0
3 pop 1
3 read_alloc 0
2 read_alloc 0
2 read_field 0 0
3 read_field 1 0

# the packet is empty again: seat 2 stores its length, gives it back, and counts it
2 store_length 0
2 give 0 0
2 credit

# the packet is empty again: seat 3 stores its length, gives it back, and counts it
3 store_length 1
3 give 1 0
3 credit

# they leave; seat 1 closes help, and reads that nobody helps any more: it is alone again
2 leave_help_step
3 leave_help_step
1 close_step
1 see_help

# all packets are counted (68), no card is dirty, both roots name marked cells, and the block counter is 0: the sweep begins
1 store_phase 3
# seat 3 helps once more
1 open_step
3 join_help_step
3 read_phase
# it reads that a block is left, takes it, reads its allocation bits and its marks, stores the bits of the marked cells
# (none is freed), and clears the marks
3 read_stat 1
3 next_block
3 read_alloc 0
3 read_block_marks
3 store_alloc
3 clear_marks
3 leave_help_step
1 close_step
1 see_help

# every block was handed out and no mark is left: the cycle ends, and the world goes on
1 store_phase 0
1 drop_step
