# Completions of fountain and the scripts over it for fish.

# What the program tells of the script that is the first word of fountain-pick-sheets.
function __fountain_told
    fountain $argv (string replace -r '^~/' "$HOME/" -- (commandline -opc)[2]) 2>/dev/null
end
function __fountain_names
    __fountain_told cast | string match -v -r '^\t'
end
function __fountain_scenes
    __fountain_told outline | sed '/^$/q' | string replace -f -r '^([^#=\t][^\t]*)\t[^\t]*\t' '$1\t'
end

complete -c fountain -f
complete -c fountain -n __fish_use_subcommand -a print -d 'Write all sheets of a script'
complete -c fountain -n __fish_use_subcommand -a outline -d 'Write its sections, scenes and cast'
complete -c fountain -n __fish_use_subcommand -a desk -d 'Answer commands that edit it'
complete -c fountain -n __fish_use_subcommand -a sample -d 'Make a script and hold a session over it'
complete -c fountain -n __fish_use_subcommand -a packet -d 'Write the sheets to hand out anew'
complete -c fountain -n __fish_use_subcommand -a collate -d 'Put sheets into those handed out before'
complete -c fountain -n __fish_use_subcommand -a html -d 'Write a page for a browser'
complete -c fountain -n __fish_use_subcommand -a cast -d 'Write for each name its scenes'
complete -c fountain -n __fish_use_subcommand -a room -d 'Answer the commands of several seats'
complete -c fountain -n '__fish_seen_subcommand_from print outline desk packet collate html cast room' -F

for script in check-script hand-out memo pdf pick-sheets share-room sheet-at take-in watch-sheets
    complete -c fountain-$script -l help -d 'Tell what it does'
end
complete -c fountain-hand-out -l a4 -d 'Set pages for A4, on the first day'
complete -c fountain-hand-out -l without-speakers -d "Leave out (CONT'D), on the first day"
complete -c fountain-pdf -l a4 -d 'A4 paper'
complete -c fountain-pdf -l colours -d 'Tint each page by its colour'
complete -c fountain-pdf -l sheets -d 'Take printed sheets'
complete -c fountain-pick-sheets -l sheets -d 'Take printed sheets'
complete -c fountain-pick-sheets -l scene -x -a '(__fountain_scenes)' -d 'The sheets of a scene'
complete -c fountain-pick-sheets -l name -x -a '(__fountain_names)' -d 'The sheets on which a name speaks'
complete -c fountain-sheet-at -l json -d 'Tell its place and label too'
complete -c fountain-take-in -l dry-run -d 'Tell what would change'
complete -c fountain-take-in -n 'string match -q -- "-*" (commandline -ct)' -a --base= -d 'Take in only what changed since this text'
complete -c fountain-take-in -l recover -d 'Take in what changed a script itself'
