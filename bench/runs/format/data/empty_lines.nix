


{ lib }:


let


  a = 1;



  b = 2;

in

{

  inherit a;

  inherit b;

}


