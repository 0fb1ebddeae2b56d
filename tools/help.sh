# What a caller is told beside what the program says (docs/SCRIPTS.md has all of it).

say_help() {
    cat >&2 <<'HELP'
adiar makes binary decision diagrams by a script and keeps each in a file of a folder.

  ./adiar run FOLDER --script FILE [--netlist FILE] [--budget RECORDS]
      runs a script's job in the folder, or goes on with it where it was stopped
  ./adiar list FOLDER
      says NAME N for each named diagram that the folder has, N being its number of nodes
  ./adiar gen FOLDER --size SIZE [--budget RECORDS]
      runs the example script of a size: whether two words of SIZE bits are equal
  ./adiar --try ACTION FOLDER ..
      does the same by the same sources without their proof, checked as they run

FOLDER is made where it isn't there. It belongs to one script, and one netlist or none; each run may have another budget.

  --script FILE      the path of the script
  --netlist FILE     the path of the netlist
  --budget RECORDS   the records of the room that a run works in, 64 bytes each:
                     16384 to 4194304, and 262144 where none is given
  --size SIZE        a number from 1 to 16

On a terminal it shows how far a run is; with ADIAR_PROGRESS=1 everywhere, with ADIAR_PROGRESS=0 nowhere.

A script's first line is `vars V1 V2 ..`, or `inputs` for those of the netlist. Each other line is a request:

  const NAME 0|1          the diagram of a truth value
  var NAME V              the diagram of a variable
  not NAME F              where F is 0
  and NAME F G            where both are 1
  or NAME F G             where one of them is 1, or both are
  xor NAME F G            where they differ
  nand NAME F G           where not both are 1
  nor NAME F G            where none is 1
  xnor NAME F G           where they are equal
  imp NAME F G            where F is 0 or G is 1
  ite NAME C F G          F where C is 1, and G where C is 0
  exists NAME F V         where F is 1 for some value of V
  forall NAME F V         where F is 1 for both values of V
  restrict NAME F V 0|1   F with that value in place of V
  net NAME SIGNAL ..      the diagram of each signal of the netlist, one for each pair of words
  drop F                  the diagram isn't wanted any more
  same F G                whether they are the same function: yes or no
  leq F G                 whether G is 1 wherever F is: yes or no
  eval F BITS             the value of F where the variables have these: 1 or 0
  size F                  the number of nodes of a diagram

The status is 0 where all was done. Else it says that
  2 the words, 3 the script, 4 the netlist aren't accepted
  5 the folder stores another job
  6 the script or the netlist couldn't be read
  7 a call of the folder failed
  8 a line couldn't be said
  9 there was no memory
  10 a file of the folder is damaged
  11 a step has no part number left
With 7 and 8, and after any other stop, the same command goes on where it was.
HELP
}

# Says what a status other than 0 means, and what to do.
explain() {
    case $1 in
        2) say "status 2: the words aren't accepted; ./adiar help says which are" ;;
        3) say "status 3: the script isn't accepted; docs/SCRIPTS.md, \"What is refused\", has the kind of fault" ;;
        4) say "status 4: the netlist isn't accepted; docs/NETLISTS.md, \"Refusals\", has the kind of fault" ;;
        5) say "status 5: $place stores another job, that is another script or netlist:" \
            "name another folder, or empty this one" ;;
        6) say "status 6: $(unread)" ;;
        7) say "status 7: a call of the folder $place failed: $(unusable)" ;;
        8) say "status 8: standard output took no more: what is committed stays, and the same command goes on" ;;
        9) say "status 9: there was no memory, and nothing was changed: a smaller --budget takes less" ;;
        10) say "status 10: of \`damaged S P B\` above, the file sSpP of $place is damaged from byte B on:" \
            "put it back from a copy, or run the job in another folder" ;;
        11) say "status 11: a step in $place has no part number left: run the job in another folder" ;;
        129 | 1[3-9]? | 2??)
            say "signal $(($1 - 128)) ended the program: what is committed stays, and the same command goes on" ;;
        *) say "status $1: the program couldn't be started" ;;
    esac
}

# Which of the texts that the words name can't be read. The netlist is read first.
unread() {
    for name in netlist script; do
        has_option "$name" || continue
        eval "path=\$$name"
        if [ ! -e "$path" ]; then
            echo "there is no $name ${path:-''}"
        elif [ -d "$path" ]; then
            echo "the $name $path is a folder"
        elif [ ! -r "$path" ]; then
            echo "the $name $path may not be read"
        else
            continue
        fi
        return
    done
    echo "the script or the netlist couldn't be read"
}

# What may be wrong with the folder.
unusable() {
    if [ ! -e "$place" ] && [ ! -d "$(dirname -- "$place")" ]; then
        echo "the folder that it is to stand in isn't there"
    elif [ -e "$place" ] && [ ! -d "$place" ]; then
        echo "it is no folder"
    elif [ -d "$place" ] && ! { [ -r "$place" ] && [ -w "$place" ] && [ -x "$place" ]; }; then
        echo "you may not read and write it"
    else
        echo "look at its rights, at the space of its disk (df), and whether its files are plain files;" \
            "then the same command goes on"
    fi
}
