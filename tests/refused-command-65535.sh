# The last command that a script may have is bad. It stands at line 65,537.
printf -- '--\n\n'
yes '{"settle":true}' | head -n 65534
printf '{"foo":1}\n'
