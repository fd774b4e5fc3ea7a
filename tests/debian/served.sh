#!/usr/bin/env bash
# served.sh MODULE OBJECT HANDLER FILE: Apache serves FILE as a page, by that handler of the module, from two processes, and is asked for it 40
# times. It prints the sums of what came. Apache ends with its whole group of processes, so it has one of its own.
set -eu
room=$(mktemp -d)
port=$((20000 + $$ % 20000))
trap '/usr/sbin/apache2 -f "$room/conf" -k stop || true; wait; rm -rf "$room"' EXIT
mkdir "$room/pages"
page=index.${4##*.}
cp "$4" "$room/pages/$page"
chmod -R a+rX "$room"
modules=/usr/lib/apache2/modules
cat >"$room/conf" <<CONF
ServerRoot $room
ServerName localhost
Listen 127.0.0.1:$port
PidFile $room/number
ErrorLog $room/errors
LoadModule mpm_prefork_module $modules/mod_mpm_prefork.so
LoadModule authz_core_module $modules/mod_authz_core.so
LoadModule dir_module $modules/mod_dir.so
LoadModule $1 $2
DocumentRoot $room/pages
DirectoryIndex $page
User nobody
Group nogroup
StartServers 2
MaxConnectionsPerChild 15
<Directory $room/pages>
    Require all granted
</Directory>
<FilesMatch "^index">
    SetHandler $3
</FilesMatch>
CONF

# The page, without what stands before it.
ask() {
    exec 3<>"/dev/tcp/127.0.0.1/$port" || return
    printf 'GET / HTTP/1.0\r\n\r\n' >&3
    sed '1,/^\r$/d' <&3
    exec 3>&-
}

setsid /usr/sbin/apache2 -f "$room/conf" -D FOREGROUND &
for _ in $(seq 1 300); do
    ! (ask >"$room/first") 2>"$room/said" || break
    sleep 0.1
done
for _ in $(seq 1 40); do ask | cksum; done | sort | uniq -c
