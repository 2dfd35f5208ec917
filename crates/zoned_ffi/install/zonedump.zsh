#compdef zonedump
# Completion of zonedump for zsh: options, files, and the names of zones of the tz database.
_zonedump_zones() {
    _alternative 'files:file:_files' "zones:zone:_files -W ${TZDIR:-/usr/share/zoneinfo}"
}
_arguments \
    '--from[first year or date]:year or date:' \
    '--to[last year or date]:year or date:' \
    '--zdump[print what zdump -v prints]' \
    '--json[print an object of JSON for each zone]' \
    '--write[write one zone in TZif form]:new file:_files' \
    '--svg[draw one zone]:new file:_files' \
    '--colors[colours of the picture]:colors:(light dark)' \
    '--at[print the local time of each zone]:time:' \
    '--local[the time is a local time]' \
    '--diff[compare two files or folders]' \
    '--summary[zones with the same differences together]' \
    '--times[which times in a file move]:file:_files' \
    '--tzdir[the tz database]:folder:_files -/' \
    '--text[a TZ string in place of zones]:TZ string:' \
    '--extended[read the TZ string with extensions]' \
    '(- *)'{-h,--help}'[print the help]' \
    '(- *)'{-V,--version}'[print the version]' \
    '*:zone:_zonedump_zones'
