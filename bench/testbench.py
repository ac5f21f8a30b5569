#!/usr/bin/env python3
"""Prints a Verilog test bench for a netlist and its vectors.

  bench/testbench.py NET VEC

It stands around the module that yosys makes of NET, a netlist that `andexor synth` wrote: it applies each vector of VEC, prints each whose
response the module does not show, an unknown value counting as another, and ends with the line `vectors V wrong W`.
"""
import sys

import fault_sim


def model_of(path):
    with open(path, encoding="latin-1") as file:
        return next(line.split()[1] for line in file if line.startswith(".model"))


def escaped(name):
    """The name as Verilog takes any name without blanks: behind a backslash and before a blank."""
    return f"\\{name} "


def ports(names, bus):
    return [f".{escaped(name)}({bus}[{len(names) - 1 - place}])" for place, name in enumerate(names)]


def testbench(model, net, vectors):
    inputs, outputs = len(net.inputs), len(net.outputs)
    applied = [f"    apply({inputs}'b{point}, {outputs}'b{outs});" for point, outs in vectors]
    return f"""module testbench;
  reg [{inputs - 1}:0] in;
  wire [{outputs - 1}:0] out;
  integer wrong = 0;

  {escaped(model)}tested (
    {(','+chr(10)+'    ').join(ports(net.inputs, 'in') + ports(net.outputs, 'out'))}
  );

  task apply(input [{inputs - 1}:0] point, input [{outputs - 1}:0] response);
    begin
      in = point;
      #1;
      if (out !== response) begin
        wrong = wrong + 1;
        $display("vector %b: %b, not %b", point, out, response);
      end
    end
  endtask

  initial begin
{chr(10).join(applied)}
    $display("vectors {len(vectors)} wrong %0d", wrong);
    $finish;
  end
endmodule"""


if __name__ == "__main__":
    if len(sys.argv) != 3:
        sys.exit(__doc__)
    print(testbench(model_of(sys.argv[1]), fault_sim.read_net(sys.argv[1]), fault_sim.read_vectors(sys.argv[2])))
