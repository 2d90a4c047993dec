# Completion of om, om-each and om-classes for fish, made by completions/make.py: put it into a folder of
# completions, once for each name.
function __om_at --description 'the command is this one, and the word is at this place, or at any behind it'
    set -l words (commandline -opc)
    test "$words[2]" = $argv[1]; and begin
        test (count $words) -eq $argv[2]; or test "$argv[3]" = more -a (count $words) -ge $argv[2]
    end
end
function __om_first --description 'the word is the first one'
    test (count (commandline -opc)) -eq 1
end
function __om_above --description 'the elements above the one before'
    set -l words (commandline -opc)
    seq (math (string match -r '^[0-9]+$' -- $words[-1]; or echo 0) + 1) 20
end
for program in om om-each om_each
    complete -c $program -f
    complete -c $program -n '__om_first' -a accept -d 'whether the document meets the axioms of its kind, or the first violated instance'
    complete -c $program -n '__om_first' -a member -d 'whether the sign vector is a covector'
    complete -c $program -n '__om_first' -a convert -d 'the same oriented matroid as a document of this kind'
    complete -c $program -n '__om_first' -a dual -d 'the dual'
    complete -c $program -n '__om_first' -a delete -d 'the deletion of an element; those above it move down by one'
    complete -c $program -n '__om_first' -a contract -d 'the contraction of an element; those above it move down by one'
    complete -c $program -n '__om_first' -a reorient -d 'the reorientation on these elements'
    complete -c $program -n '__om_first' -a wiring -d 'the least wiring diagram of a sweepable chirotope of rank 3'
    complete -c $program -n '__om_first' -a mutations -d 'the triples of a chirotope of rank 3 whose sign can be turned alone'
    complete -c $program -n '__om_first' -a flip -d 'the chirotope of rank 3 with the sign of this triple turned, where that can be'
    complete -c $program -n '__om_first' -a extend -d 'the first K extensions of a chirotope of rank 3 by one element'
    complete -c $program -n '__om_first' -a decide -d 'a verdict on a chirotope of rank 3, with its evidence: vectors, a certificate that there are none, or weights'
    complete -c $program -n '__om_first' -a check -d 'whether the evidence of a claim proves its verdict'
    complete -c $program -n '__om_first' -a paint -d 'the first circuit through E that fits the colours, or else the first cocircuit'
    complete -c $program -n '__om_first' -a hull -d 'whether the oriented matroid is acyclic, and which elements are extreme'
    complete -c $program -n '__om_first' -a lexext -d 'the lexicographic extension by these elements with signs'
    complete -c $program -n '__om_first' -a threeterm -d 'whether the map of a chirotope passes the three-term test'
    complete -c $program -n '__om_first' -a upgrade -d 'the document in version 2 of the format'
    complete -c $program -n '__om_at convert 2' -k -a 'chirotope circuits cocircuits covectors'
    complete -c $program -n '__om_at delete 2' -k -a '1 2 3 4 5 6 7 8 9 10 11 12 13 14 15 16 17 18 19 20'
    complete -c $program -n '__om_at contract 2' -k -a '1 2 3 4 5 6 7 8 9 10 11 12 13 14 15 16 17 18 19 20'
    complete -c $program -n '__om_at reorient 2 more' -k -a '(__om_above)'
    complete -c $program -n '__om_at flip 2' -k -a '1 2 3 4 5 6 7 8 9 10 11 12 13 14 15 16 17 18 19 20'
    complete -c $program -n '__om_at flip 3' -k -a '(__om_above)'
    complete -c $program -n '__om_at flip 4' -k -a '(__om_above)'
    complete -c $program -n '__om_at extend 2 more' -l first -x -a 100000
    complete -c $program -n '__om_at decide 2 more' -l box -x -a 6
    complete -c $program -n '__om_at decide 2 more' -l steps -x -a 2000000
    complete -c $program -n '__om_at decide 2 more' -l pivots -x -a 20000
    complete -c $program -n '__om_at paint 3' -k -a '1 2 3 4 5 6 7 8 9 10 11 12 13 14 15 16 17 18 19 20'
    complete -c $program -n '__om_at lexext 2 more' -k -a '+1 +2 +3 +4 +5 +6 +7 +8 +9 +10 +11 +12 +13 +14 +15 +16 +17 +18 +19 +20 -1 -2 -3 -4 -5 -6 -7 -8 -9 -10 -11 -12 -13 -14 -15 -16 -17 -18 -19 -20'
end
# a stream has no command that reads nothing
for program in om
    complete -c $program -n '__om_first' -a make -d 'K points that the number N gives; it reads nothing'
    complete -c $program -n '__om_at make 3 more' -l count -x -a 16
end
for program in om-classes om_classes
    complete -c $program -f
    complete -c $program -n '__om_first' -a all -d 'whether lists on 4, 5, and so on elements have each class of simple chirotopes, or the first thing that is wrong'
    complete -c $program -n '__om_first' -a uniform -d 'whether they have each class of uniform chirotopes, which have no sign 0'
    complete -c $program -n '__om_first' -a least -d 'the least chirotope of the class of each document of rank 3, as a document'
    complete -c $program -n '__om_at all 2' -l complete
    complete -c $program -n '__om_at uniform 2' -l complete
end
