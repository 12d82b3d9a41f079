# Answers calls of `binary format` and `binary scan`: one line for each line of standard input.
#
#   format LAYOUT ARGUMENT..      ok RECORD, or error
#   scan LAYOUT RECORD SORTS      ok COUNT VALUE.., or error
#
# Layouts, records and values are hex after a colon. SORTS has a letter for each variable: `o` or `l` for one real or a list of
# reals, whose values come back as the bytes of doubles (Tcl's text of some does not tell them from their neighbours).
# An argument is hex after a colon, integers between commas after `=`, or the bytes of doubles as hex after `~`; those of one
# double after `!`. A value that was not set is `-`.

proc decoded {word} {
    set rest [string range $word 1 end]
    switch [string index $word 0] {
        = {return [split $rest ,]}
        ~ {binary scan [binary decode hex $rest] Q* reals; return $reals}
        ! {binary scan [binary decode hex $rest] Q real; return $real}
    }
    return [binary decode hex $rest]
}

proc coded {value} {
    return :[binary encode hex $value]
}

proc answerFormat {layout arguments} {
    set values {}
    foreach word $arguments {
        lappend values [decoded $word]
    }
    if {[catch {binary format $layout {*}$values} record]} {
        return error
    }
    return "ok [coded $record]"
}

proc shown {sort value} {
    switch $sort {
        o {return [coded [binary format Q $value]]}
        l {return [coded [binary format Q* $value]]}
    }
    return [coded $value]
}

proc answerScan {layout record sorts} {
    set names {}
    for {set i 0} {$i < [string length $sorts]} {incr i} {
        lappend names value($i)
    }
    if {[catch {binary scan $record $layout {*}$names} count]} {
        return error
    }
    set answer "ok $count"
    foreach name $names sort [split $sorts ""] {
        if {[info exists $name]} {
            append answer " [shown $sort [set $name]]"
        } else {
            append answer " -"
        }
    }
    return $answer
}

puts [info patchlevel]
while {[gets stdin line] >= 0} {
    set words [split $line " "]
    set layout [decoded [lindex $words 1]]
    if {[lindex $words 0] eq "format"} {
        puts [answerFormat $layout [lrange $words 2 end]]
    } else {
        puts [answerScan $layout [decoded [lindex $words 2]] [lindex $words 3]]
    }
}
