# An image that runs drivers in C. PACKAGE is the .deb that bin/release made, below the folder that is built from:
#   docker build -f Containerfile --build-arg PACKAGE=out/release/irp_VERSION_amd64.deb -t irp .
#   docker run --rm -v "$PWD:/work" irp --every-order --junit junit.xml --sarif irp.sarif mydriver
FROM debian:bookworm-slim
ARG PACKAGE
COPY ${PACKAGE} /tmp/irp.deb
RUN apt-get update \
    && apt-get install --yes --no-install-recommends /tmp/irp.deb gcc binutils libc6-dev \
    && rm -rf /tmp/irp.deb /var/lib/apt/lists/*
# The host is compiled here once, and whoever runs the image may use it.
ENV XDG_CACHE_HOME=/cache
RUN irp drive /usr/share/irp/drivers/samples/toaster.c && chmod -R a+rwX /cache
WORKDIR /work
ENTRYPOINT ["irp", "drive"]
