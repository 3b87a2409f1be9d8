# Completion of fish for dreplay and its tools.
for tool in dreplay dreplay-data dreplay-rows dreplay-from-strace dreplay-from-perf \
        dreplay-from-ftrace dreplay-from-ctf dreplay-from-chrome dreplay-record dreplay-explain \
        dreplay-show dreplay-many dreplay-ask
    complete -c $tool -s h -l help -d 'Write a short help'
end
for tool in dreplay dreplay-data
    complete -c $tool -s s -r -d 'Take the script from a file'
    complete -c $tool -s w -x -d 'Workers, from 1 to 16'
    complete -c $tool -s g -x -d 'Groups, from 1 to 4096'
    complete -c $tool -s e -x -a 'dif tree' -d 'What evaluates the script'
end
complete -c dreplay-from-strace -s n -l name -x -d 'execname until an execve'
complete -c dreplay-from-strace -l only -x -d 'These calls alone'
complete -c dreplay-from-strace -l since -x -d 'Leave out the first seconds'
complete -c dreplay-from-strace -l rows -x -d 'The first rows alone'
complete -c dreplay-from-strace -l paths -d 'The first path in the module'
complete -c dreplay-from-strace -l ppid -d 'The parent in arg9'
complete -c dreplay-from-strace -l threads -r -d 'Threads that ran before'
complete -c dreplay-from-strace -s j -l jobs -x -d 'Processes that read it'
complete -c dreplay-from-strace -l python -d 'Without the program dreplay-rows'
for tool in dreplay-from-strace dreplay-from-perf dreplay-from-ftrace dreplay-from-ctf \
        dreplay-from-chrome
    complete -c $tool -s o -r -d 'Where the trace goes'
    complete -c $tool -l split -x -d 'Cut into parts by thread'
    complete -c $tool -l from-zero -d 'Times since the first line'
end
for tool in dreplay-from-perf dreplay-from-ftrace dreplay-from-ctf
    complete -c $tool -l machine -x -a 'x86_64 aarch64 riscv64 loongarch64 none' \
        -d 'Whose numbers of calls'
end
for tool in dreplay-record dreplay-from-strace dreplay-from-perf dreplay-from-ftrace \
        dreplay-from-ctf dreplay-from-chrome
    complete -c $tool -l version -d 'Write the version'
end
complete -c dreplay-record -s o -r -d 'Where the trace goes'
complete -c dreplay-record -s p -x -a '(__fish_complete_pids)' -d 'Record a process that runs'
complete -c dreplay-record -s e -x -d 'These calls alone'
complete -c dreplay-record -l raw -d 'All arguments as numbers'
complete -c dreplay-record -l symbolic -d 'Leave out what strace shows by name'
complete -c dreplay-record -l paths -d 'The first path in the module'
complete -c dreplay-record -l ppid -d 'The parent in arg9'
complete -c dreplay-record -l from-zero -d 'Times since the first line'
complete -c dreplay-record -l split -x -d 'Cut into parts by thread'
complete -c dreplay-record -x -a '(__fish_complete_subcommand)'
complete -c dreplay-record -l keep -r -d 'Keep the recording of strace'
complete -c dreplay-record -l rows -x -d 'The first rows alone'
complete -c dreplay-explain -s s -r -d 'The script'
complete -c dreplay-explain -s t -r -d 'The trace'
complete -c dreplay-explain -s b -r -d 'The bundle'
complete -c dreplay-explain -l short -d 'One line, as editors take it'
complete -c dreplay-explain -l check -r -d 'Whether a script is right'
complete -c dreplay-explain -l clauses -d 'Count what reaches each clause'
complete -c dreplay-show -s s -r -d 'The script'
for tool in dreplay-show dreplay-many dreplay-ask
    complete -c $tool -s f -x -a 'table csv json markdown bars svg heat html folded timeline' \
        -d 'The form'
    complete -c $tool -l top -x -d 'The largest entries'
    complete -c $tool -l only -x -d 'One aggregation'
    complete -c $tool -l columns -x -d 'Names of the keys'
    complete -c $tool -l sort -x -a 'key value' -d 'The order'
    complete -c $tool -l unit -x -a 'ns us ms s bytes' -d 'Unit of histograms'
    complete -c $tool -l value-unit -x -a 'ns us ms s bytes %' -d 'Unit of values'
    complete -c $tool -l percentiles -x -d 'Percentiles of histograms'
    complete -c $tool -l fail-if -x -d 'End with status 5 if it is true'
    complete -c $tool -l guard -d 'No formulas in CSV'
    complete -c $tool -l title -x -d 'A title'
    complete -c $tool -l width -x -d 'Width of bars'
end
complete -c dreplay-show -s t -r -d 'A trace that was asked'
complete -c dreplay-show -s o -r -d 'Where it goes'
complete -c dreplay-show -l against -r -d 'The answer to compare with'
complete -c dreplay-show -l of -x -d 'The name of a recording'
complete -c dreplay-show -l of-before -x -d 'The name of the one before'
complete -c dreplay-show -l of-script -x -d 'The name of the script'
complete -c dreplay-ask -s s -r -d 'The file of the script'
complete -c dreplay-ask -s c -x -d 'Record this command first'
complete -c dreplay-ask -s o -r -d 'Where it goes'
complete -c dreplay-ask -l against -r -d 'The recording to compare with'
complete -c dreplay-ask -l with -x -d 'Options of the converter'
complete -c dreplay-ask -l no-cache -d 'Keep no trace'
for tool in dreplay-explain dreplay-show dreplay-many dreplay-ask
    complete -c $tool -l version -d 'Write the version'
end
complete -c dreplay-many -s s -r -d 'The script'
complete -c dreplay-many -s o -r -d 'The folder of answers'
complete -c dreplay-many -s j -l jobs -x -d 'How many at once'
complete -c dreplay-many -l list -r -d 'A file with traces'
complete -c dreplay-many -l part -x -d 'A part of all traces'
complete -c dreplay-many -l program -r -d 'The program'
