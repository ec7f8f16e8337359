/* What the file is for. */

{ # what follows
  a = 1;     # the first
  # a line of its own
  # and one more
  b = [ 1 # one
    2
    # the end of the list
  ];


  # the end of the set
}
# the end
