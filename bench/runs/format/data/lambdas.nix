{
  id = x: x;
  curried = a: b: { c = a;
    d = b; };
  pattern = { a, b ? 1, ... }: a;
  named = args@{ a, ... }: args;
  behind = { a, ... } @ args: args;
  body = x: let y = x; in y;
  long = { firstArgument, secondArgument, thirdArgument, fourthArgument, fifthArgument, sixthArgument }: firstArgument;
}
