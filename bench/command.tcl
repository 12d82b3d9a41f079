# A file of records of 25 bytes as tab-separated text, by Tcl's binary scan: command.tcl FILE. Prints what `curlew read --records 25 --tsv --long` prints.
proc main {name} {
    set file [open $name rb]
    fconfigure stdout -buffering full -buffersize 1000000
    puts "record\tfield\ttype\tbyte\tvalue"
    set number 0
    while {[set record [read $file 25]] ne ""} {
        binary scan $record a6A12SuSuSuc code name written oral steno grade
        puts "$number\t0\ta6\t0\t$code\n$number\t1\tA12\t6\t[string trimright $name "\0 "]\n$number\t2\tSu\t18\t$written\n$number\t3\tSu\t20\t$oral\n$number\t4\tSu\t22\t$steno\n$number\t5\tc\t24\t$grade"
        incr number
    }
}
main [lindex $argv 0]
