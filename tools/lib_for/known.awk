# Reads a module's text, as clang prints it, and prints with its line each word that is not on the lists below: nobody has looked at what it
# means on another chip. Inline assembly, variables, numbers that are not whole, addresses made of numbers and instructions for one kind of
# chip are all words that are not known.
function know(list, words, k, count) {
    count = split(list, words, " ")
    for (k = 1; k <= count; k++) known[words[k]] = 1
}

function is_known(word) {
    if (word ~ /^[%#]/ || word ~ /^!?-?[0-9]+$/) return 1 # a value, a group of attributes, a number
    if (word ~ /^@/ && word !~ /^@llvm\./) return 1 # a function of the library's own; what is declared is looked at below
    return word in known
}

BEGIN {
    know("source_filename target datalayout triple define declare internal attributes !llvm.ident")
    # whole numbers of one width, and addresses
    know("void ptr i1 i8 i16 i32 i64 x true false")
    know("add sub mul udiv urem sdiv srem shl lshr ashr and or xor zext sext trunc to select phi")
    know("icmp eq ne ult ule ugt uge slt sle sgt sge")
    know("alloca load store getelementptr align call ret br label switch unreachable")
    # a member of the two that an inner function gives, and the address of nothing, which is 0 on each of the chips
    know("extractvalue null")
    know("@llvm.memmove.p0.p0.i64 @llvm.memcpy.p0.p0.i64 @llvm.memset.p0.i64 @llvm.trap")
    # what the toolchain has LLVM assume
    know("inbounds nuw nsw exact noundef !noundef !range immarg")
    know("noinline alwaysinline nounwind nocallback nofree willreturn cold noreturn memory argmem inaccessiblemem read write readwrite readonly writeonly")
    know("captures none")
    # of the library's inner functions only: target.sh holds the header's calls to what C hands over
    know("zeroext")
}

/^attributes / { gsub(/"probe-stack"="inline-asm"|"stack-probe-size"="3072"|"target-cpu"="x86-64"/, "") }
/^attributes .*"/ { print "line " NR ": the attribute " substr($0, index($0, "\"")) }
/^declare / && !/@llvm\./ { print "line " NR ": a function that the library does not have: " $0 }
{
    gsub(/"[^"]*"/, "")
    sub(/;.*/, "")
    sub(/^[-A-Za-z0-9_.$]*:/, "")
    while (match($0, /[%#@!]?[-A-Za-z0-9_.$]+/)) {
        word = substr($0, RSTART, RLENGTH)
        $0 = substr($0, RSTART + RLENGTH)
        if (!is_known(word)) print "line " NR ": the word " word
    }
}
