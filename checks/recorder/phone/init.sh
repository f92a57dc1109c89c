#!/busybox sh
# The first process of a guest for checks/phone: a small system like Android, which adb reaches by the network. It has
# the driver, a manager and services (system.c) that began long before, and adbd of Debian on these ports:
#   5555  as root
#   5556  as the user 2000, who can't become root
#   5557  as the user 2000, for whom there is an su
#   5558  as root, on a machine that seems to be another one
#   5559  as root, in a domain of SELinux that may not use bpf
# /shell says whether its commands are toybox, with mksh, as on Android, or busybox. With a /policy it enforces that one.
# shellcheck shell=dash disable=SC2086
/busybox mkdir -p /proc /sys /dev /run /tmp /data/local/tmp /bin
/busybox mount -t proc proc /proc
/busybox mount -t sysfs sys /sys
/busybox mount -t devtmpfs dev /dev
for module in $(/busybox cat /modules/order); do /busybox insmod /modules/$module; done
/busybox insmod /modules/binder_linux.ko devices=binder,hwbinder,vndbinder || echo "guest: wrong: no driver"
/busybox mount -t debugfs debug /sys/kernel/debug
/busybox mount -t tracefs trace /sys/kernel/tracing
/busybox mount -t tmpfs -o mode=1777 tmp /data/local/tmp
/busybox ifconfig lo 127.0.0.1 up
/busybox ifconfig eth0 10.0.2.15 up
if [ "$(/busybox cat /shell)" = toybox ]; then
	for name in $(/usr/bin/toybox); do /busybox ln -s /usr/bin/toybox /bin/$name; done
	/busybox ln -s /usr/bin/mksh /bin/sh
else
	/busybox --install -s /bin
fi
/busybox cp /system-programs/service /bin/service
printf '#!/bin/sh\necho package:org.example.app uid:10123\n' >/bin/pm
/busybox chmod 755 /bin/pm
/busybox chmod 666 /dev/binder
/busybox chown 0:0 /su/su
/busybox chmod 4755 /su/su
echo 1 >/proc/sys/kernel/kptr_restrict

if [ -e /policy ]; then
	/busybox mount -t selinuxfs none /sys/fs/selinux
	/busybox cat /policy >/sys/fs/selinux/load && echo 1 >/sys/fs/selinux/enforce
fi

# As Android's init does, it begins adbd again when it has ended.
serve() { # PORT PATH USER DOMAIN
	if [ -e /policy ]; then printf %s "u:r:$4" >/proc/self/attr/current; fi
	while :; do
		cd / && ADBD_PORT=$1 PATH=$2 /busybox su -s /bin/sh $3 -c 'exec /usr/lib/android-sdk/platform-tools/adbd' \
			>/run/adbd-$1.log 2>&1 </dev/null &
		echo $! >/run/adbd-$1
		wait $!
		/busybox sleep 5
	done
}
/busybox mkdir -p /run && /busybox chmod 777 /run
/system-programs/system &
/busybox sleep 5
serve 5555 /bin:/usr/bin root su &
serve 5556 /bin:/usr/bin shell shell &
serve 5557 /su:/bin:/usr/bin shell su &
serve 5558 /other:/bin:/usr/bin root su &
serve 5559 /bin:/usr/bin root shell &
echo "guest: ready"
while /busybox sleep 10; do echo "guest: $(cut -d" " -f1 /proc/uptime)"; done
