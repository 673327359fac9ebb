# Completion of fz for fish. The commands are those that the program names in its usage line.
function __fz_commands
    fz 2>/dev/null | string replace -r '^usage: fz ' '' | string replace -a ',' '' | string replace ' or ' ' ' | string split ' '
end
complete -c fz -n __fish_use_subcommand -f -a '(__fz_commands)'
complete -c fz -n '__fish_seen_subcommand_from pack retile' -l codec -x -a 'rice plio none' -d 'the code of tiles'
complete -c fz -n '__fish_seen_subcommand_from pack retile' -l tile -x -d 'lengths of a tile: a,b,..'
complete -c fz -n '__fish_seen_subcommand_from pack retile' -l block -x -d 'pixels of a block of a Rice code'
complete -c fz -n '__fish_seen_subcommand_from pack retile' -l sums -d 'add DATASUM and CHECKSUM'
complete -c fz -n '__fish_seen_subcommand_from cut patch' -l hdu -x -d 'the HDU of the packed image'
complete -c fz -n '__fish_seen_subcommand_from cut' -l box -x -d 'a piece for each axis: lo:hi[:step],..'
complete -c fz -n '__fish_seen_subcommand_from patch' -l at -x -d 'where the first pixel goes: a,b,..'
complete -c fz -n '__fish_seen_subcommand_from verify' -l strict -d 'say whether pack writes this very file'
complete -c fz -n '__fish_seen_subcommand_from pack unpack cut retile' -l workers -x -d 'threads that code tiles, 1 to 64'
complete -c fz -n '__fish_seen_subcommand_from pack unpack cut verify retile patch' -l memory -x -d 'the limit on buffers, in bytes'
