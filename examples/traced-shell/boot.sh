trap 'echo ready' USR1
(mknod /srv/c1/dev/null c 1 3; mknod /srv/c1/dev/sda b 8 0) &
(mkfifo /srv/c1/run/log; kill -USR1 $$) &
wait
wait
: > /srv/c1/dev/null
