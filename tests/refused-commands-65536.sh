# One line more than a script may have. It stands at line 65,540 and is no command.
printf -- '--\n\n'
yes '{"settle":true}' | head -n 65535
printf '\n\n['
