# An image of aclck-tree, with the other programs, of the packages that `make package` leaves in debian/out:
#
#     podman build -t aclck . && podman run --rm -v /srv/shared:/srv/shared:ro -v "$PWD":/out aclck \
#         scan /srv/shared -o /out/monday
#
# README.md says what the licence is.
FROM debian:bookworm-slim
COPY debian/out/aclck_*.deb debian/out/libaclck1_*.deb debian/out/python3-aclck_*.deb /packages/
RUN apt-get update \
    && apt-get install -y --no-install-recommends /packages/*.deb \
    && rm -rf /packages /var/lib/apt/lists/*
ENTRYPOINT ["aclck-tree"]
