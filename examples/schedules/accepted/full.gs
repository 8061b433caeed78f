gcschedule 1
# A heap in which every cell is reachable is found full.
# cells, packets, entries, sections, fields, seats
shape 64 2 2 2 1 2

# seat 0 has the catalogue: it stops the world, turns the season to the warehouses' turn, resumes the world and leaves
0 raise_step
0 observe
0 next_season
0 drop_step
0 leave_step

# the 64 cells become a list: each further cell refers to the one before
# seat 1 has section 1: it enters, reads that it is its turn, and claims block 0 to make cells in
1 enter_step
1 read_season
1 claim_block 0
1 read_free

# it makes cell 0, its object 0: a nil field, the value 5, and section and number
1 store_new 0 0 0
1 store_new 0 1 5
1 store_new 0 2 4294967296
# variable 0 names it
1 store_root 0 1

# it makes cell 1, its object 1: a nil field, the value 5, and section and number
1 store_new 1 0 0
1 store_new 1 1 5
1 store_new 1 2 4294967297
# variable 1 names it, its field becomes what variable 0 is (the cell is in its own block and unpublished: no card is owed),
# and variable 0 names it as well
1 store_root 1 2
1 store_field 1 0 0
1 store_root 0 2

# it makes cell 2, its object 2: a nil field, the value 5, and section and number
1 store_new 2 0 0
1 store_new 2 1 5
1 store_new 2 2 4294967298
# variable 1 names it, its field becomes what variable 0 is (the cell is in its own block and unpublished: no card is owed),
# and variable 0 names it as well
1 store_root 1 3
1 store_field 1 0 0
1 store_root 0 3

# it makes cell 3, its object 3: a nil field, the value 5, and section and number
1 store_new 3 0 0
1 store_new 3 1 5
1 store_new 3 2 4294967299
# variable 1 names it, its field becomes what variable 0 is (the cell is in its own block and unpublished: no card is owed),
# and variable 0 names it as well
1 store_root 1 4
1 store_field 1 0 0
1 store_root 0 4

# it makes cell 4, its object 4: a nil field, the value 5, and section and number
1 store_new 4 0 0
1 store_new 4 1 5
1 store_new 4 2 4294967300
# variable 1 names it, its field becomes what variable 0 is (the cell is in its own block and unpublished: no card is owed),
# and variable 0 names it as well
1 store_root 1 5
1 store_field 1 0 0
1 store_root 0 5

# it makes cell 5, its object 5: a nil field, the value 5, and section and number
1 store_new 5 0 0
1 store_new 5 1 5
1 store_new 5 2 4294967301
# variable 1 names it, its field becomes what variable 0 is (the cell is in its own block and unpublished: no card is owed),
# and variable 0 names it as well
1 store_root 1 6
1 store_field 1 0 0
1 store_root 0 6

# it makes cell 6, its object 6: a nil field, the value 5, and section and number
1 store_new 6 0 0
1 store_new 6 1 5
1 store_new 6 2 4294967302
# variable 1 names it, its field becomes what variable 0 is (the cell is in its own block and unpublished: no card is owed),
# and variable 0 names it as well
1 store_root 1 7
1 store_field 1 0 0
1 store_root 0 7

# it makes cell 7, its object 7: a nil field, the value 5, and section and number
1 store_new 7 0 0
1 store_new 7 1 5
1 store_new 7 2 4294967303
# variable 1 names it, its field becomes what variable 0 is (the cell is in its own block and unpublished: no card is owed),
# and variable 0 names it as well
1 store_root 1 8
1 store_field 1 0 0
1 store_root 0 8

# it makes cell 8, its object 8: a nil field, the value 5, and section and number
1 store_new 8 0 0
1 store_new 8 1 5
1 store_new 8 2 4294967304
# variable 1 names it, its field becomes what variable 0 is (the cell is in its own block and unpublished: no card is owed),
# and variable 0 names it as well
1 store_root 1 9
1 store_field 1 0 0
1 store_root 0 9

# it makes cell 9, its object 9: a nil field, the value 5, and section and number
1 store_new 9 0 0
1 store_new 9 1 5
1 store_new 9 2 4294967305
# variable 1 names it, its field becomes what variable 0 is (the cell is in its own block and unpublished: no card is owed),
# and variable 0 names it as well
1 store_root 1 10
1 store_field 1 0 0
1 store_root 0 10

# it makes cell 10, its object 10: a nil field, the value 5, and section and number
1 store_new 10 0 0
1 store_new 10 1 5
1 store_new 10 2 4294967306
# variable 1 names it, its field becomes what variable 0 is (the cell is in its own block and unpublished: no card is owed),
# and variable 0 names it as well
1 store_root 1 11
1 store_field 1 0 0
1 store_root 0 11

# it makes cell 11, its object 11: a nil field, the value 5, and section and number
1 store_new 11 0 0
1 store_new 11 1 5
1 store_new 11 2 4294967307
# variable 1 names it, its field becomes what variable 0 is (the cell is in its own block and unpublished: no card is owed),
# and variable 0 names it as well
1 store_root 1 12
1 store_field 1 0 0
1 store_root 0 12

# it makes cell 12, its object 12: a nil field, the value 5, and section and number
1 store_new 12 0 0
1 store_new 12 1 5
1 store_new 12 2 4294967308
# variable 1 names it, its field becomes what variable 0 is (the cell is in its own block and unpublished: no card is owed),
# and variable 0 names it as well
1 store_root 1 13
1 store_field 1 0 0
1 store_root 0 13

# it makes cell 13, its object 13: a nil field, the value 5, and section and number
1 store_new 13 0 0
1 store_new 13 1 5
1 store_new 13 2 4294967309
# variable 1 names it, its field becomes what variable 0 is (the cell is in its own block and unpublished: no card is owed),
# and variable 0 names it as well
1 store_root 1 14
1 store_field 1 0 0
1 store_root 0 14

# it makes cell 14, its object 14: a nil field, the value 5, and section and number
1 store_new 14 0 0
1 store_new 14 1 5
1 store_new 14 2 4294967310
# variable 1 names it, its field becomes what variable 0 is (the cell is in its own block and unpublished: no card is owed),
# and variable 0 names it as well
1 store_root 1 15
1 store_field 1 0 0
1 store_root 0 15

# it makes cell 15, its object 15: a nil field, the value 5, and section and number
1 store_new 15 0 0
1 store_new 15 1 5
1 store_new 15 2 4294967311
# variable 1 names it, its field becomes what variable 0 is (the cell is in its own block and unpublished: no card is owed),
# and variable 0 names it as well
1 store_root 1 16
1 store_field 1 0 0
1 store_root 0 16

# it makes cell 16, its object 16: a nil field, the value 5, and section and number
1 store_new 16 0 0
1 store_new 16 1 5
1 store_new 16 2 4294967312
# variable 1 names it, its field becomes what variable 0 is (the cell is in its own block and unpublished: no card is owed),
# and variable 0 names it as well
1 store_root 1 17
1 store_field 1 0 0
1 store_root 0 17

# it makes cell 17, its object 17: a nil field, the value 5, and section and number
1 store_new 17 0 0
1 store_new 17 1 5
1 store_new 17 2 4294967313
# variable 1 names it, its field becomes what variable 0 is (the cell is in its own block and unpublished: no card is owed),
# and variable 0 names it as well
1 store_root 1 18
1 store_field 1 0 0
1 store_root 0 18

# it makes cell 18, its object 18: a nil field, the value 5, and section and number
1 store_new 18 0 0
1 store_new 18 1 5
1 store_new 18 2 4294967314
# variable 1 names it, its field becomes what variable 0 is (the cell is in its own block and unpublished: no card is owed),
# and variable 0 names it as well
1 store_root 1 19
1 store_field 1 0 0
1 store_root 0 19

# it makes cell 19, its object 19: a nil field, the value 5, and section and number
1 store_new 19 0 0
1 store_new 19 1 5
1 store_new 19 2 4294967315
# variable 1 names it, its field becomes what variable 0 is (the cell is in its own block and unpublished: no card is owed),
# and variable 0 names it as well
1 store_root 1 20
1 store_field 1 0 0
1 store_root 0 20

# it makes cell 20, its object 20: a nil field, the value 5, and section and number
1 store_new 20 0 0
1 store_new 20 1 5
1 store_new 20 2 4294967316
# variable 1 names it, its field becomes what variable 0 is (the cell is in its own block and unpublished: no card is owed),
# and variable 0 names it as well
1 store_root 1 21
1 store_field 1 0 0
1 store_root 0 21

# it makes cell 21, its object 21: a nil field, the value 5, and section and number
1 store_new 21 0 0
1 store_new 21 1 5
1 store_new 21 2 4294967317
# variable 1 names it, its field becomes what variable 0 is (the cell is in its own block and unpublished: no card is owed),
# and variable 0 names it as well
1 store_root 1 22
1 store_field 1 0 0
1 store_root 0 22

# it makes cell 22, its object 22: a nil field, the value 5, and section and number
1 store_new 22 0 0
1 store_new 22 1 5
1 store_new 22 2 4294967318
# variable 1 names it, its field becomes what variable 0 is (the cell is in its own block and unpublished: no card is owed),
# and variable 0 names it as well
1 store_root 1 23
1 store_field 1 0 0
1 store_root 0 23

# it makes cell 23, its object 23: a nil field, the value 5, and section and number
1 store_new 23 0 0
1 store_new 23 1 5
1 store_new 23 2 4294967319
# variable 1 names it, its field becomes what variable 0 is (the cell is in its own block and unpublished: no card is owed),
# and variable 0 names it as well
1 store_root 1 24
1 store_field 1 0 0
1 store_root 0 24

# it makes cell 24, its object 24: a nil field, the value 5, and section and number
1 store_new 24 0 0
1 store_new 24 1 5
1 store_new 24 2 4294967320
# variable 1 names it, its field becomes what variable 0 is (the cell is in its own block and unpublished: no card is owed),
# and variable 0 names it as well
1 store_root 1 25
1 store_field 1 0 0
1 store_root 0 25

# it makes cell 25, its object 25: a nil field, the value 5, and section and number
1 store_new 25 0 0
1 store_new 25 1 5
1 store_new 25 2 4294967321
# variable 1 names it, its field becomes what variable 0 is (the cell is in its own block and unpublished: no card is owed),
# and variable 0 names it as well
1 store_root 1 26
1 store_field 1 0 0
1 store_root 0 26

# it makes cell 26, its object 26: a nil field, the value 5, and section and number
1 store_new 26 0 0
1 store_new 26 1 5
1 store_new 26 2 4294967322
# variable 1 names it, its field becomes what variable 0 is (the cell is in its own block and unpublished: no card is owed),
# and variable 0 names it as well
1 store_root 1 27
1 store_field 1 0 0
1 store_root 0 27

# it makes cell 27, its object 27: a nil field, the value 5, and section and number
1 store_new 27 0 0
1 store_new 27 1 5
1 store_new 27 2 4294967323
# variable 1 names it, its field becomes what variable 0 is (the cell is in its own block and unpublished: no card is owed),
# and variable 0 names it as well
1 store_root 1 28
1 store_field 1 0 0
1 store_root 0 28

# it makes cell 28, its object 28: a nil field, the value 5, and section and number
1 store_new 28 0 0
1 store_new 28 1 5
1 store_new 28 2 4294967324
# variable 1 names it, its field becomes what variable 0 is (the cell is in its own block and unpublished: no card is owed),
# and variable 0 names it as well
1 store_root 1 29
1 store_field 1 0 0
1 store_root 0 29

# it makes cell 29, its object 29: a nil field, the value 5, and section and number
1 store_new 29 0 0
1 store_new 29 1 5
1 store_new 29 2 4294967325
# variable 1 names it, its field becomes what variable 0 is (the cell is in its own block and unpublished: no card is owed),
# and variable 0 names it as well
1 store_root 1 30
1 store_field 1 0 0
1 store_root 0 30

# it makes cell 30, its object 30: a nil field, the value 5, and section and number
1 store_new 30 0 0
1 store_new 30 1 5
1 store_new 30 2 4294967326
# variable 1 names it, its field becomes what variable 0 is (the cell is in its own block and unpublished: no card is owed),
# and variable 0 names it as well
1 store_root 1 31
1 store_field 1 0 0
1 store_root 0 31

# it makes cell 31, its object 31: a nil field, the value 5, and section and number
1 store_new 31 0 0
1 store_new 31 1 5
1 store_new 31 2 4294967327
# variable 1 names it, its field becomes what variable 0 is (the cell is in its own block and unpublished: no card is owed),
# and variable 0 names it as well
1 store_root 1 32
1 store_field 1 0 0
1 store_root 0 32

# it makes cell 32, its object 32: a nil field, the value 5, and section and number
1 store_new 32 0 0
1 store_new 32 1 5
1 store_new 32 2 4294967328
# variable 1 names it, its field becomes what variable 0 is (the cell is in its own block and unpublished: no card is owed),
# and variable 0 names it as well
1 store_root 1 33
1 store_field 1 0 0
1 store_root 0 33

# it makes cell 33, its object 33: a nil field, the value 5, and section and number
1 store_new 33 0 0
1 store_new 33 1 5
1 store_new 33 2 4294967329
# variable 1 names it, its field becomes what variable 0 is (the cell is in its own block and unpublished: no card is owed),
# and variable 0 names it as well
1 store_root 1 34
1 store_field 1 0 0
1 store_root 0 34

# it makes cell 34, its object 34: a nil field, the value 5, and section and number
1 store_new 34 0 0
1 store_new 34 1 5
1 store_new 34 2 4294967330
# variable 1 names it, its field becomes what variable 0 is (the cell is in its own block and unpublished: no card is owed),
# and variable 0 names it as well
1 store_root 1 35
1 store_field 1 0 0
1 store_root 0 35

# it makes cell 35, its object 35: a nil field, the value 5, and section and number
1 store_new 35 0 0
1 store_new 35 1 5
1 store_new 35 2 4294967331
# variable 1 names it, its field becomes what variable 0 is (the cell is in its own block and unpublished: no card is owed),
# and variable 0 names it as well
1 store_root 1 36
1 store_field 1 0 0
1 store_root 0 36

# it makes cell 36, its object 36: a nil field, the value 5, and section and number
1 store_new 36 0 0
1 store_new 36 1 5
1 store_new 36 2 4294967332
# variable 1 names it, its field becomes what variable 0 is (the cell is in its own block and unpublished: no card is owed),
# and variable 0 names it as well
1 store_root 1 37
1 store_field 1 0 0
1 store_root 0 37

# it makes cell 37, its object 37: a nil field, the value 5, and section and number
1 store_new 37 0 0
1 store_new 37 1 5
1 store_new 37 2 4294967333
# variable 1 names it, its field becomes what variable 0 is (the cell is in its own block and unpublished: no card is owed),
# and variable 0 names it as well
1 store_root 1 38
1 store_field 1 0 0
1 store_root 0 38

# it makes cell 38, its object 38: a nil field, the value 5, and section and number
1 store_new 38 0 0
1 store_new 38 1 5
1 store_new 38 2 4294967334
# variable 1 names it, its field becomes what variable 0 is (the cell is in its own block and unpublished: no card is owed),
# and variable 0 names it as well
1 store_root 1 39
1 store_field 1 0 0
1 store_root 0 39

# it makes cell 39, its object 39: a nil field, the value 5, and section and number
1 store_new 39 0 0
1 store_new 39 1 5
1 store_new 39 2 4294967335
# variable 1 names it, its field becomes what variable 0 is (the cell is in its own block and unpublished: no card is owed),
# and variable 0 names it as well
1 store_root 1 40
1 store_field 1 0 0
1 store_root 0 40

# it makes cell 40, its object 40: a nil field, the value 5, and section and number
1 store_new 40 0 0
1 store_new 40 1 5
1 store_new 40 2 4294967336
# variable 1 names it, its field becomes what variable 0 is (the cell is in its own block and unpublished: no card is owed),
# and variable 0 names it as well
1 store_root 1 41
1 store_field 1 0 0
1 store_root 0 41

# it makes cell 41, its object 41: a nil field, the value 5, and section and number
1 store_new 41 0 0
1 store_new 41 1 5
1 store_new 41 2 4294967337
# variable 1 names it, its field becomes what variable 0 is (the cell is in its own block and unpublished: no card is owed),
# and variable 0 names it as well
1 store_root 1 42
1 store_field 1 0 0
1 store_root 0 42

# it makes cell 42, its object 42: a nil field, the value 5, and section and number
1 store_new 42 0 0
1 store_new 42 1 5
1 store_new 42 2 4294967338
# variable 1 names it, its field becomes what variable 0 is (the cell is in its own block and unpublished: no card is owed),
# and variable 0 names it as well
1 store_root 1 43
1 store_field 1 0 0
1 store_root 0 43

# it makes cell 43, its object 43: a nil field, the value 5, and section and number
1 store_new 43 0 0
1 store_new 43 1 5
1 store_new 43 2 4294967339
# variable 1 names it, its field becomes what variable 0 is (the cell is in its own block and unpublished: no card is owed),
# and variable 0 names it as well
1 store_root 1 44
1 store_field 1 0 0
1 store_root 0 44

# it makes cell 44, its object 44: a nil field, the value 5, and section and number
1 store_new 44 0 0
1 store_new 44 1 5
1 store_new 44 2 4294967340
# variable 1 names it, its field becomes what variable 0 is (the cell is in its own block and unpublished: no card is owed),
# and variable 0 names it as well
1 store_root 1 45
1 store_field 1 0 0
1 store_root 0 45

# it makes cell 45, its object 45: a nil field, the value 5, and section and number
1 store_new 45 0 0
1 store_new 45 1 5
1 store_new 45 2 4294967341
# variable 1 names it, its field becomes what variable 0 is (the cell is in its own block and unpublished: no card is owed),
# and variable 0 names it as well
1 store_root 1 46
1 store_field 1 0 0
1 store_root 0 46

# it makes cell 46, its object 46: a nil field, the value 5, and section and number
1 store_new 46 0 0
1 store_new 46 1 5
1 store_new 46 2 4294967342
# variable 1 names it, its field becomes what variable 0 is (the cell is in its own block and unpublished: no card is owed),
# and variable 0 names it as well
1 store_root 1 47
1 store_field 1 0 0
1 store_root 0 47

# it makes cell 47, its object 47: a nil field, the value 5, and section and number
1 store_new 47 0 0
1 store_new 47 1 5
1 store_new 47 2 4294967343
# variable 1 names it, its field becomes what variable 0 is (the cell is in its own block and unpublished: no card is owed),
# and variable 0 names it as well
1 store_root 1 48
1 store_field 1 0 0
1 store_root 0 48

# it makes cell 48, its object 48: a nil field, the value 5, and section and number
1 store_new 48 0 0
1 store_new 48 1 5
1 store_new 48 2 4294967344
# variable 1 names it, its field becomes what variable 0 is (the cell is in its own block and unpublished: no card is owed),
# and variable 0 names it as well
1 store_root 1 49
1 store_field 1 0 0
1 store_root 0 49

# it makes cell 49, its object 49: a nil field, the value 5, and section and number
1 store_new 49 0 0
1 store_new 49 1 5
1 store_new 49 2 4294967345
# variable 1 names it, its field becomes what variable 0 is (the cell is in its own block and unpublished: no card is owed),
# and variable 0 names it as well
1 store_root 1 50
1 store_field 1 0 0
1 store_root 0 50

# it makes cell 50, its object 50: a nil field, the value 5, and section and number
1 store_new 50 0 0
1 store_new 50 1 5
1 store_new 50 2 4294967346
# variable 1 names it, its field becomes what variable 0 is (the cell is in its own block and unpublished: no card is owed),
# and variable 0 names it as well
1 store_root 1 51
1 store_field 1 0 0
1 store_root 0 51

# it makes cell 51, its object 51: a nil field, the value 5, and section and number
1 store_new 51 0 0
1 store_new 51 1 5
1 store_new 51 2 4294967347
# variable 1 names it, its field becomes what variable 0 is (the cell is in its own block and unpublished: no card is owed),
# and variable 0 names it as well
1 store_root 1 52
1 store_field 1 0 0
1 store_root 0 52

# it makes cell 52, its object 52: a nil field, the value 5, and section and number
1 store_new 52 0 0
1 store_new 52 1 5
1 store_new 52 2 4294967348
# variable 1 names it, its field becomes what variable 0 is (the cell is in its own block and unpublished: no card is owed),
# and variable 0 names it as well
1 store_root 1 53
1 store_field 1 0 0
1 store_root 0 53

# it makes cell 53, its object 53: a nil field, the value 5, and section and number
1 store_new 53 0 0
1 store_new 53 1 5
1 store_new 53 2 4294967349
# variable 1 names it, its field becomes what variable 0 is (the cell is in its own block and unpublished: no card is owed),
# and variable 0 names it as well
1 store_root 1 54
1 store_field 1 0 0
1 store_root 0 54

# it makes cell 54, its object 54: a nil field, the value 5, and section and number
1 store_new 54 0 0
1 store_new 54 1 5
1 store_new 54 2 4294967350
# variable 1 names it, its field becomes what variable 0 is (the cell is in its own block and unpublished: no card is owed),
# and variable 0 names it as well
1 store_root 1 55
1 store_field 1 0 0
1 store_root 0 55

# it makes cell 55, its object 55: a nil field, the value 5, and section and number
1 store_new 55 0 0
1 store_new 55 1 5
1 store_new 55 2 4294967351
# variable 1 names it, its field becomes what variable 0 is (the cell is in its own block and unpublished: no card is owed),
# and variable 0 names it as well
1 store_root 1 56
1 store_field 1 0 0
1 store_root 0 56

# it makes cell 56, its object 56: a nil field, the value 5, and section and number
1 store_new 56 0 0
1 store_new 56 1 5
1 store_new 56 2 4294967352
# variable 1 names it, its field becomes what variable 0 is (the cell is in its own block and unpublished: no card is owed),
# and variable 0 names it as well
1 store_root 1 57
1 store_field 1 0 0
1 store_root 0 57

# it makes cell 57, its object 57: a nil field, the value 5, and section and number
1 store_new 57 0 0
1 store_new 57 1 5
1 store_new 57 2 4294967353
# variable 1 names it, its field becomes what variable 0 is (the cell is in its own block and unpublished: no card is owed),
# and variable 0 names it as well
1 store_root 1 58
1 store_field 1 0 0
1 store_root 0 58

# it makes cell 58, its object 58: a nil field, the value 5, and section and number
1 store_new 58 0 0
1 store_new 58 1 5
1 store_new 58 2 4294967354
# variable 1 names it, its field becomes what variable 0 is (the cell is in its own block and unpublished: no card is owed),
# and variable 0 names it as well
1 store_root 1 59
1 store_field 1 0 0
1 store_root 0 59

# it makes cell 59, its object 59: a nil field, the value 5, and section and number
1 store_new 59 0 0
1 store_new 59 1 5
1 store_new 59 2 4294967355
# variable 1 names it, its field becomes what variable 0 is (the cell is in its own block and unpublished: no card is owed),
# and variable 0 names it as well
1 store_root 1 60
1 store_field 1 0 0
1 store_root 0 60

# it makes cell 60, its object 60: a nil field, the value 5, and section and number
1 store_new 60 0 0
1 store_new 60 1 5
1 store_new 60 2 4294967356
# variable 1 names it, its field becomes what variable 0 is (the cell is in its own block and unpublished: no card is owed),
# and variable 0 names it as well
1 store_root 1 61
1 store_field 1 0 0
1 store_root 0 61

# it makes cell 61, its object 61: a nil field, the value 5, and section and number
1 store_new 61 0 0
1 store_new 61 1 5
1 store_new 61 2 4294967357
# variable 1 names it, its field becomes what variable 0 is (the cell is in its own block and unpublished: no card is owed),
# and variable 0 names it as well
1 store_root 1 62
1 store_field 1 0 0
1 store_root 0 62

# it makes cell 62, its object 62: a nil field, the value 5, and section and number
1 store_new 62 0 0
1 store_new 62 1 5
1 store_new 62 2 4294967358
# variable 1 names it, its field becomes what variable 0 is (the cell is in its own block and unpublished: no card is owed),
# and variable 0 names it as well
1 store_root 1 63
1 store_field 1 0 0
1 store_root 0 63

# it makes cell 63, its object 63: a nil field, the value 5, and section and number
1 store_new 63 0 0
1 store_new 63 1 5
1 store_new 63 2 4294967359
# variable 1 names it, its field becomes what variable 0 is (the cell is in its own block and unpublished: no card is owed),
# and variable 0 names it as well
1 store_root 1 64
1 store_field 1 0 0
1 store_root 0 64

# variable 0 names the head of the list; variable 1 is no longer needed
1 store_root 1 0

# it publishes its cells with one atomic or into the block's allocation word, and gives the block up
1 publish_cells
1 release_block

# it finds no free cell: it leaves, and stops the world
1 leave_step

# it raises the flag, reads that no seat is counted, and moves to Drain
1 raise_step
1 observe
1 store_phase 2

# the drain begins with no cell marked, so it is exact: it takes a packet, and marks the head of the list
1 reserve
1 take 0 0
1 read_length 0
1 read_root 1 0
1 set_mark 63
1 push 0 63

# cell 63 is scanned, and leads to cell 62
1 pop 0
1 read_alloc 0
1 read_field 63 0
1 set_mark 62
1 push 0 62

# cell 62 is scanned, and leads to cell 61
1 pop 0
1 read_alloc 0
1 read_field 62 0
1 set_mark 61
1 push 0 61

# cell 61 is scanned, and leads to cell 60
1 pop 0
1 read_alloc 0
1 read_field 61 0
1 set_mark 60
1 push 0 60

# cell 60 is scanned, and leads to cell 59
1 pop 0
1 read_alloc 0
1 read_field 60 0
1 set_mark 59
1 push 0 59

# cell 59 is scanned, and leads to cell 58
1 pop 0
1 read_alloc 0
1 read_field 59 0
1 set_mark 58
1 push 0 58

# cell 58 is scanned, and leads to cell 57
1 pop 0
1 read_alloc 0
1 read_field 58 0
1 set_mark 57
1 push 0 57

# cell 57 is scanned, and leads to cell 56
1 pop 0
1 read_alloc 0
1 read_field 57 0
1 set_mark 56
1 push 0 56

# cell 56 is scanned, and leads to cell 55
1 pop 0
1 read_alloc 0
1 read_field 56 0
1 set_mark 55
1 push 0 55

# cell 55 is scanned, and leads to cell 54
1 pop 0
1 read_alloc 0
1 read_field 55 0
1 set_mark 54
1 push 0 54

# cell 54 is scanned, and leads to cell 53
1 pop 0
1 read_alloc 0
1 read_field 54 0
1 set_mark 53
1 push 0 53

# cell 53 is scanned, and leads to cell 52
1 pop 0
1 read_alloc 0
1 read_field 53 0
1 set_mark 52
1 push 0 52

# cell 52 is scanned, and leads to cell 51
1 pop 0
1 read_alloc 0
1 read_field 52 0
1 set_mark 51
1 push 0 51

# cell 51 is scanned, and leads to cell 50
1 pop 0
1 read_alloc 0
1 read_field 51 0
1 set_mark 50
1 push 0 50

# cell 50 is scanned, and leads to cell 49
1 pop 0
1 read_alloc 0
1 read_field 50 0
1 set_mark 49
1 push 0 49

# cell 49 is scanned, and leads to cell 48
1 pop 0
1 read_alloc 0
1 read_field 49 0
1 set_mark 48
1 push 0 48

# cell 48 is scanned, and leads to cell 47
1 pop 0
1 read_alloc 0
1 read_field 48 0
1 set_mark 47
1 push 0 47

# cell 47 is scanned, and leads to cell 46
1 pop 0
1 read_alloc 0
1 read_field 47 0
1 set_mark 46
1 push 0 46

# cell 46 is scanned, and leads to cell 45
1 pop 0
1 read_alloc 0
1 read_field 46 0
1 set_mark 45
1 push 0 45

# cell 45 is scanned, and leads to cell 44
1 pop 0
1 read_alloc 0
1 read_field 45 0
1 set_mark 44
1 push 0 44

# cell 44 is scanned, and leads to cell 43
1 pop 0
1 read_alloc 0
1 read_field 44 0
1 set_mark 43
1 push 0 43

# cell 43 is scanned, and leads to cell 42
1 pop 0
1 read_alloc 0
1 read_field 43 0
1 set_mark 42
1 push 0 42

# cell 42 is scanned, and leads to cell 41
1 pop 0
1 read_alloc 0
1 read_field 42 0
1 set_mark 41
1 push 0 41

# cell 41 is scanned, and leads to cell 40
1 pop 0
1 read_alloc 0
1 read_field 41 0
1 set_mark 40
1 push 0 40

# cell 40 is scanned, and leads to cell 39
1 pop 0
1 read_alloc 0
1 read_field 40 0
1 set_mark 39
1 push 0 39

# cell 39 is scanned, and leads to cell 38
1 pop 0
1 read_alloc 0
1 read_field 39 0
1 set_mark 38
1 push 0 38

# cell 38 is scanned, and leads to cell 37
1 pop 0
1 read_alloc 0
1 read_field 38 0
1 set_mark 37
1 push 0 37

# cell 37 is scanned, and leads to cell 36
1 pop 0
1 read_alloc 0
1 read_field 37 0
1 set_mark 36
1 push 0 36

# cell 36 is scanned, and leads to cell 35
1 pop 0
1 read_alloc 0
1 read_field 36 0
1 set_mark 35
1 push 0 35

# cell 35 is scanned, and leads to cell 34
1 pop 0
1 read_alloc 0
1 read_field 35 0
1 set_mark 34
1 push 0 34

# cell 34 is scanned, and leads to cell 33
1 pop 0
1 read_alloc 0
1 read_field 34 0
1 set_mark 33
1 push 0 33

# cell 33 is scanned, and leads to cell 32
1 pop 0
1 read_alloc 0
1 read_field 33 0
1 set_mark 32
1 push 0 32

# cell 32 is scanned, and leads to cell 31
1 pop 0
1 read_alloc 0
1 read_field 32 0
1 set_mark 31
1 push 0 31

# cell 31 is scanned, and leads to cell 30
1 pop 0
1 read_alloc 0
1 read_field 31 0
1 set_mark 30
1 push 0 30

# cell 30 is scanned, and leads to cell 29
1 pop 0
1 read_alloc 0
1 read_field 30 0
1 set_mark 29
1 push 0 29

# cell 29 is scanned, and leads to cell 28
1 pop 0
1 read_alloc 0
1 read_field 29 0
1 set_mark 28
1 push 0 28

# cell 28 is scanned, and leads to cell 27
1 pop 0
1 read_alloc 0
1 read_field 28 0
1 set_mark 27
1 push 0 27

# cell 27 is scanned, and leads to cell 26
1 pop 0
1 read_alloc 0
1 read_field 27 0
1 set_mark 26
1 push 0 26

# cell 26 is scanned, and leads to cell 25
1 pop 0
1 read_alloc 0
1 read_field 26 0
1 set_mark 25
1 push 0 25

# cell 25 is scanned, and leads to cell 24
1 pop 0
1 read_alloc 0
1 read_field 25 0
1 set_mark 24
1 push 0 24

# cell 24 is scanned, and leads to cell 23
1 pop 0
1 read_alloc 0
1 read_field 24 0
1 set_mark 23
1 push 0 23

# cell 23 is scanned, and leads to cell 22
1 pop 0
1 read_alloc 0
1 read_field 23 0
1 set_mark 22
1 push 0 22

# cell 22 is scanned, and leads to cell 21
1 pop 0
1 read_alloc 0
1 read_field 22 0
1 set_mark 21
1 push 0 21

# cell 21 is scanned, and leads to cell 20
1 pop 0
1 read_alloc 0
1 read_field 21 0
1 set_mark 20
1 push 0 20

# cell 20 is scanned, and leads to cell 19
1 pop 0
1 read_alloc 0
1 read_field 20 0
1 set_mark 19
1 push 0 19

# cell 19 is scanned, and leads to cell 18
1 pop 0
1 read_alloc 0
1 read_field 19 0
1 set_mark 18
1 push 0 18

# cell 18 is scanned, and leads to cell 17
1 pop 0
1 read_alloc 0
1 read_field 18 0
1 set_mark 17
1 push 0 17

# cell 17 is scanned, and leads to cell 16
1 pop 0
1 read_alloc 0
1 read_field 17 0
1 set_mark 16
1 push 0 16

# cell 16 is scanned, and leads to cell 15
1 pop 0
1 read_alloc 0
1 read_field 16 0
1 set_mark 15
1 push 0 15

# cell 15 is scanned, and leads to cell 14
1 pop 0
1 read_alloc 0
1 read_field 15 0
1 set_mark 14
1 push 0 14

# cell 14 is scanned, and leads to cell 13
1 pop 0
1 read_alloc 0
1 read_field 14 0
1 set_mark 13
1 push 0 13

# cell 13 is scanned, and leads to cell 12
1 pop 0
1 read_alloc 0
1 read_field 13 0
1 set_mark 12
1 push 0 12

# cell 12 is scanned, and leads to cell 11
1 pop 0
1 read_alloc 0
1 read_field 12 0
1 set_mark 11
1 push 0 11

# cell 11 is scanned, and leads to cell 10
1 pop 0
1 read_alloc 0
1 read_field 11 0
1 set_mark 10
1 push 0 10

# cell 10 is scanned, and leads to cell 9
1 pop 0
1 read_alloc 0
1 read_field 10 0
1 set_mark 9
1 push 0 9

# cell 9 is scanned, and leads to cell 8
1 pop 0
1 read_alloc 0
1 read_field 9 0
1 set_mark 8
1 push 0 8

# cell 8 is scanned, and leads to cell 7
1 pop 0
1 read_alloc 0
1 read_field 8 0
1 set_mark 7
1 push 0 7

# cell 7 is scanned, and leads to cell 6
1 pop 0
1 read_alloc 0
1 read_field 7 0
1 set_mark 6
1 push 0 6

# cell 6 is scanned, and leads to cell 5
1 pop 0
1 read_alloc 0
1 read_field 6 0
1 set_mark 5
1 push 0 5

# cell 5 is scanned, and leads to cell 4
1 pop 0
1 read_alloc 0
1 read_field 5 0
1 set_mark 4
1 push 0 4

# cell 4 is scanned, and leads to cell 3
1 pop 0
1 read_alloc 0
1 read_field 4 0
1 set_mark 3
1 push 0 3

# cell 3 is scanned, and leads to cell 2
1 pop 0
1 read_alloc 0
1 read_field 3 0
1 set_mark 2
1 push 0 2

# cell 2 is scanned, and leads to cell 1
1 pop 0
1 read_alloc 0
1 read_field 2 0
1 set_mark 1
1 push 0 1

# cell 1 is scanned, and leads to cell 0
1 pop 0
1 read_alloc 0
1 read_field 1 0
1 set_mark 0
1 push 0 0

# cell 0 is scanned, the last
1 pop 0
1 read_alloc 0
1 read_field 0 0

# the packet is empty again: seat 1 stores its length, gives it back, and counts it
1 store_length 0
1 give 0 0
1 credit

# every cell is marked: the sweep frees none
1 store_phase 3
1 read_stat 1
1 next_block
1 read_alloc 0
1 read_block_marks
1 store_alloc
1 clear_marks
1 store_phase 0
# the marking was exact and every cell is still in use, so every cell is reachable: seat 1 stores its section in NAMED, and
# the heap is full
1 store_named
1 store_phase 5
1 drop_step
