gcschedule 1
# A cell waits until it is published, and is scanned then.
# cells, packets, entries, sections, fields, seats
shape 64 2 2 2 1 3

# seat 0 has the catalogue: it stops the world, turns the season to the warehouses' turn, resumes the world and leaves
0 raise_step
0 observe
0 next_season
0 drop_step
0 leave_step

# seat 1 has section 1: it enters, reads that it is its turn, and claims block 0 to make cells in
1 enter_step
1 read_season
1 claim_block 0
1 read_free

# it makes cell 0, its object 0: a nil field, the value 5, and section and number
1 store_new 0 0 0
1 store_new 0 1 5
1 store_new 0 2 4294967296
# variable 0 names it
1 store_root 0 1

# it begins marking, and seat 2, a tracer, enters and reads the phase
1 store_phase 1
2 enter_step
2 read_phase

# seat 2 announces that it takes an empty packet, takes packet 0, and reads its length, 0
2 reserve
2 take 0 0
2 read_length 0

# it loads variable 0 of section 1, marks cell 0, and puts it into packet 0: the cell is grey
2 read_root 1 0
2 set_mark 0
2 push 0 0

# it takes cell 0 from the packet, and reads the allocation bits: the cell isn't published yet
2 pop 0
2 read_alloc 0

# its maker may still store in it without dirtying its card, so the cell goes back into the packet
2 push 0 0

# meanwhile seat 1 publishes its cells with one atomic or into the block's allocation word, and gives the block up
1 publish_cells
1 release_block

# the tracer takes it once more, and its bit is set now
2 pop 0
2 read_alloc 0
2 read_field 0 0

# the packet is empty again: seat 2 stores its length, gives it back, and counts it
2 store_length 0
2 give 0 0
2 credit

2 leave_step
1 leave_step

# seat 1 stops the world: it raises the flag, reads that no seat is counted, and moves to Drain
1 raise_step
1 observe
1 store_phase 2
