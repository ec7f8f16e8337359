with import <nixpkgs> { }
{
  tools = [ git jq ];
}
