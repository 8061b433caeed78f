gcschedule 1
# The card is found dirty before the store, where that helps nobody.
# cells, packets, entries, sections, fields, seats
shape 64 2 2 2 1 3

# seat 0 has the catalogue: it stops the world, turns the season to the warehouses' turn, resumes the world and leaves
0 raise_step
0 observe
0 next_season
0 drop_step
0 leave_step

# seat 1 has section 1: it enters, reads that it is its turn, and claims block 0 to make cells in
1 enter_step
1 read_season
1 claim_block 0
1 read_free

# it makes cell 0, its object 0: a nil field, the value 5, and section and number
1 store_new 0 0 0
1 store_new 0 1 5
1 store_new 0 2 4294967296
# variable 0 names it
1 store_root 0 1

# it makes cell 1, its object 1: a nil field, the value 5, and section and number
1 store_new 1 0 0
1 store_new 1 1 5
1 store_new 1 2 4294967297
# variable 1 names it
1 store_root 1 2

# it publishes its cells with one atomic or into the block's allocation word, and gives the block up
1 publish_cells
1 release_block

# it begins marking, and seat 2, a tracer, enters and reads the phase
1 store_phase 1
2 enter_step
2 read_phase

# seat 2 announces that it takes an empty packet, takes packet 0, and reads its length, 0
2 reserve
2 take 0 0
2 read_length 0

# it loads variable 0 of section 1, marks cell 0, and puts it into packet 0: the cell is grey
2 read_root 1 0
2 set_mark 0
2 push 0 0

# it takes cell 0 from the packet, sees that it is published, and loads its field: the cell is black
2 pop 0
2 read_alloc 0
2 read_field 0 0

# the mutator stores nil in the field of black cell 0, as it is already, and dirties the card of cell 0
1 store_field 0 0 -
1 dirty_card 0
# it checks the card before it stores once more, and finds it dirty
1 check_card 0
# the tracer cleans the card in between: it finds the field of cell 0 still nil
2 clear_card 0
2 read_marks 0
2 read_alloc 0
2 read_field 0 0
# now comes the store, and from here on the card is owed
1 store_field 0 0 1
# it is clean now, so who checks it owes it still
1 check_card 0
# that it was found dirty before doesn't count: refused
1 store_root 1 0
