# "Compiles" the program, which gets a run path of the libraries, and the library.
. ./config
runpath=
for word in $ldflags; do runpath=$runpath:${word#-L}; done
sed "s|@runpath@|${runpath#:}|; s|@name@|$pname|g" src/program.in >program
{ echo "library $pname $version"; head -c 5000 /dev/zero | tr '\0' "${pname%"${pname#?}"}"; } >library
