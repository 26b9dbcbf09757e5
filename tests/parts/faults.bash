# What the surroundings of the program do to it, texts that are cut, and texts made by chance. Part of check_all. The
# Python scripts `hostile` and `random_texts` do the work; they load a small library before the program (faults.c).

# A program that was built without proofs watches its memory with a library of its own, and is slow: no growth of memory
# is refused, and less is tried.
less=
defined=
if [ "${irpx%.unproved}" != "$irpx" ]; then
    less=1
    defined=-DNO_MEMORY
fi
if cc -O1 -shared -fPIC $defined -o "$kept/faults.so" faults.c; then
    try_all ./hostile "$irpx" "$kept/faults.so" ${less:+less}
    try_all ./random_texts "$irpx" "$kept/faults.so" ${less:+30}
else
    echo 'passed over, for want of a C compiler: refused growths, cut writes, failed reads, beginnings, random texts'
fi
