# Makes the shim of the Arm library from include/ohakelm.h, as the C preprocessor leaves it.
#
# The toolchain's module hands an answer back through a plain first pointer, which is x86-64's way with a struct by value
# and not Arm's. So each export NAME of the module is renamed to NAME_proved, and the shim has one C function NAME for each,
# which hands the answer back as C does on the target. It does nothing else. The output is the header's types and calls, and
# these functions.
BEGIN { print "/* Made from include/ohakelm.h by link/shim.awk. */" }

{
    print
    text = text " " $0
}

END {
    gsub(/[ \t]+/, " ", text)
    while (match(text, /(struct ohakelm_[a-z_]+|uint32_t) ohakelm_[a-z_]+\([^()]*\);/)) {
        print_shim(substr(text, RSTART, RLENGTH))
        text = substr(text, RSTART + RLENGTH)
    }
}

# TYPE NAME(PARAMETERS);
function print_shim(call,    open, parameters, name, type, names) {
    open = index(call, "(")
    parameters = substr(call, open + 1, length(call) - open - 2)
    type = name = substr(call, 1, open - 1)
    sub(/.* /, "", name)
    sub(/ [^ ]*$/, "", type)
    names = names_of(parameters)
    if (type ~ /^struct/) {
        printf "\n%s *%s_proved(%s *answer, %s);\n", type, name, type, parameters
        printf "%s %s(%s)\n{\n    %s answer;\n", type, name, parameters, type
        printf "    %s_proved(&answer, %s);\n    return answer;\n}\n", name, names
    } else {
        printf "\n%s %s_proved(%s);\n", type, name, parameters
        printf "%s %s(%s)\n{\n    return %s_proved(%s);\n}\n", type, name, parameters, name, names
    }
}

# The parameters without their types.
function names_of(parameters,    part, count, i, names) {
    if (parameters == "void") return ""
    count = split(parameters, part, ", ")
    for (i = 1; i <= count; i++) {
        sub(/.*[ *]/, "", part[i])
        names = names (i > 1 ? ", " : "") part[i]
    }
    return names
}
