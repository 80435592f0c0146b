#!/bin/sh
# qemu_convert.sh prepare    makes an image with some bytes, and an empty one, in the working directory
# qemu_convert.sh            converts the image, by io_uring on both sides
set -e
if [ "$1" = prepare ]; then
	qemu-img create -q -f qcow2 -o cluster_size=4k from.qcow2 64k
	qemu-io -f qcow2 -c "write -P 7 4096 8192" -c "write -P 9 40000 3000" from.qcow2 >/dev/null
	qemu-img create -q -f raw to.raw 64k
	exit
fi
side=file.driver=file,file.aio=io_uring
exec qemu-img convert -n --image-opts --target-image-opts \
	"driver=qcow2,$side,file.filename=from.qcow2" "driver=raw,$side,file.filename=to.raw"
