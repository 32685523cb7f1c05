# An image with the released programs. The server listens on loopback alone, so its clients run in the same network:
#   podman build -t nazhuvem . && podman run --rm --network=host -v ./examples:/types:ro nazhuvem --types /types/widgets.json --port 8001 --concurrent
FROM debian:12-slim
# Process 1 gets no signal that it doesn't handle, so tini is it, and hands SIGTERM and Ctrl-C on.
RUN apt-get update && apt-get install -y --no-install-recommends tini && rm -rf /var/lib/apt/lists/*
ADD release/nazhuvem-*-x86_64-linux.tar.xz /opt/
RUN ln -s /opt/nazhuvem-*/ssa-* /usr/local/bin/
USER nobody
ENTRYPOINT ["tini", "--", "ssa-server"]
