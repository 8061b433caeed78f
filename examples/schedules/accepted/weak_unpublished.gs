gcschedule 1
# An object that isn't published yet looks like a freed one to all but its maker.
# cells, packets, entries, sections, fields, seats
shape 64 2 2 3 1 3

# seat 0 has the catalogue: it stops the world, turns the season to the warehouses' turn, resumes the world and leaves
0 raise_step
0 observe
0 next_season
0 drop_step
0 leave_step

# seat 1 has section 1: it enters, reads that it is its turn, and claims block 0 to make cells in
1 enter_step
1 read_season
1 claim_block 0
1 read_free

# it makes cell 0, its object 0: a nil field, the value 5, and section and number
1 store_new 0 0 0
1 store_new 0 1 5
1 store_new 0 2 4294967296
# variable 0 names it
1 store_root 0 1

# seat 2, which has section 2 and was told the cell, the section and the number, enters
2 enter_step
2 read_season

# it asks for cell 0, and finds the bit clear; yet the object is alive
2 read_weak 0
2 store_root 0 0
# its maker, seat 1, finds it in its own cache
1 read_weak 0
1 store_root 0 1

# it publishes its cells with one atomic or into the block's allocation word, and gives the block up
1 publish_cells
1 release_block

# once it is published, seat 2 finds it
2 read_weak 0
2 read_ident 0
2 store_root 0 1
