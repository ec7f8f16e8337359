{
  short = (a);
  call = (f { a = 1;
    b = 2; });
  lambda = map (x: { name = x;
    value = 1; }) xs;
  long = (someFunction firstArgument secondArgument thirdArgument) + (otherFunction fourthArgument fifthArgument);
  nested = ((a));
}
