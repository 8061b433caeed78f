gcschedule 1
# An upgrade of a weak reference after a tracer has seen that variable: no barrier is needed.
# cells, packets, entries, sections, fields, seats
shape 64 2 2 3 1 4

# seat 0 has the catalogue: it stops the world, turns the season to the warehouses' turn, resumes the world and leaves
0 raise_step
0 observe
0 next_season
0 drop_step
0 leave_step

# seat 1 has section 1: it enters, reads that it is its turn, and claims block 0 to make cells in
1 enter_step
1 read_season
1 claim_block 0
1 read_free

# it makes cell 0, its object 0: a nil field, the value 5, and section and number
1 store_new 0 0 0
1 store_new 0 1 5
1 store_new 0 2 4294967296
# variable 0 names it
1 store_root 0 1

# it publishes its cells with one atomic or into the block's allocation word, and gives the block up
1 publish_cells
1 release_block

# it takes a weak reference: it finds the bit of cell 0 set, reads section and number there, and stores its variable once more, which empties the register
1 read_weak 0
1 read_ident 0
1 store_root 0 1

# seat 2, which has section 2 and was told the cell, the section and the number, enters
2 enter_step
2 read_season

# seat 1 begins marking, and seat 3, a tracer, enters and reads the phase
1 store_phase 1
3 enter_step
3 read_phase
# it announces that it takes an empty packet, takes packet 0, and reads its length, 0
3 reserve
3 take 0 0
3 read_length 0
# it comes to variable 0 of section 2, and finds nil
3 read_root 2 0

# now seat 2 upgrades the weak reference: it finds the bit set, and the number is the one that it was told
2 read_weak 0
2 read_ident 0
# its variable 0 names white cell 0
2 store_root 0 1

# seat 1 forgets its variable before the tracer comes to it: only what was upgraded leads to cell 0
1 store_root 0 0
3 read_root 1 0
# it found nothing: it stores the packet's length, gives it back, and counts it
3 store_length 0
3 give 0 0
3 credit

# all leave
3 leave_step
2 leave_step
1 leave_step

# seat 1 stops the world: it raises the flag, reads that no seat is counted, and moves to Drain
1 raise_step
1 observe
1 store_phase 2

# it announces that it takes an empty packet, takes packet 0, and reads its length, 0
1 reserve
1 take 0 0
1 read_length 0
# all variables are looked at again: variable 0 of section 2 names cell 0, which it marks and puts into packet 0
1 read_root 2 0
1 set_mark 0
1 push 0 0
# it takes cell 0 from the packet, sees that it is published, and loads its field: the cell is black
1 pop 0
1 read_alloc 0
1 read_field 0 0
# the packet is empty again: it stores its length, gives it back, and counts it
1 store_length 0
1 give 0 0
1 credit

# the sweep: cell 0 is marked and stays
1 store_phase 3
1 read_stat 1
1 next_block
1 read_alloc 0
1 read_block_marks
1 store_alloc
1 clear_marks
# the cycle ends, and the world goes on
1 store_phase 0
1 drop_step
