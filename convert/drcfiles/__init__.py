"""What the programs of this folder share: faults in words, finding and running `drc`, its PLY texts, grids of quantised floats, files.

trouble   what is said in one line, and the statuses
faults    the kinds of faults in plain words, read from docs/FAULTS.md
program   finding `drc` and running it
plytext   the PLY texts that `drc enc` reads and `drc dec` writes
grids     floats to integers on a grid and back, in floats of 32 bits as Google's draco computes them
files     reading files; the one rule by which outputs are written
standard  a mesh from standard input, whose format has to be told
terminal  the line of progress, command lines, and how a program ends
glb       the container of binary glTF

These programs are tested, not proved.
"""
