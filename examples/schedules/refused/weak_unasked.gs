gcschedule 1
# An upgrade that compares the number, and doesn't look at the bit.
# cells, packets, entries, sections, fields, seats
shape 64 2 2 3 1 3

# seat 0 has the catalogue: it stops the world, turns the season to the warehouses' turn, resumes the world and leaves
0 raise_step
0 observe
0 next_season
0 drop_step
0 leave_step

# seat 1 has section 1: it enters, reads that it is its turn, and claims block 0 to make cells in
1 enter_step
1 read_season
1 claim_block 0
1 read_free

# it makes cell 0, its object 0: a nil field, the value 5, and section and number
1 store_new 0 0 0
1 store_new 0 1 5
1 store_new 0 2 4294967296
# variable 0 names it
1 store_root 0 1

# it publishes its cells with one atomic or into the block's allocation word, and gives the block up
1 publish_cells
1 release_block

# it takes a weak reference: it finds the bit of cell 0 set, reads section and number there, and stores its variable once more, which empties the register
1 read_weak 0
1 read_ident 0
1 store_root 0 1

# seat 1 forgets its variable: nothing leads to cell 0 any more, and a weak reference doesn't count
1 store_root 0 0

# it begins marking, and leaves
1 store_phase 1
1 leave_step
# it stops the world: it raises the flag, reads that no seat is counted, and moves to Drain
1 raise_step
1 observe
1 store_phase 2
# no variable names a cell, so nothing is marked, and the sweep begins
1 store_phase 3
# it reads that a block is left, takes it, and reads its allocation bits and its marks
1 read_stat 1
1 next_block
1 read_alloc 0
1 read_block_marks
# cell 0 isn't marked, and is freed; its words stay as they are
1 store_alloc
1 clear_marks
# the cycle ends, and the world goes on
1 store_phase 0
1 drop_step

# seat 2, which has section 2 and was told the cell, the section and the number, enters
2 enter_step
2 read_season

# the number of the dead object still stands in its cell: seat 2 would take it for alive, and let a variable name a free cell
2 read_ident 0
2 store_root 0 1
