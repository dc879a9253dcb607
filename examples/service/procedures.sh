# Procedures of the operators' pages: each begins with its name. The pages quote them, and tests run them on a machine that was set up as the pages say.

# variables: What the commands of the pages have in common: once in each shell. They are of the job `orders`, whose files are /srv/orders/state-N.bin.
FILES='--folder /srv/orders --prefix state- --suffix .bin'
DATABASE=/var/lib/relkvanu/relkvanu.db     # or postgres://relkvanu@db.example/relkvanu
export RELKVANU_TOKEN_FILE=/etc/relkvanu/write-token PGPASSFILE=/etc/relkvanu/pgpass

# over-tls: Over TLS, or from another machine: the address for the commands, and for the units of this machine.
export RELKVANU_URL=https://relkvanu.example:7780
echo "RELKVANU_URL=$RELKVANU_URL" > /etc/relkvanu/url.conf

# install: Installs the service from a release, in its folder, and serves over TLS, in a network that you trust.
apt-get install -y --no-install-recommends ca-certificates curl libpq5 libsqlite3-0 libssl3 openssl
install -t /usr/local/bin build/bin/relkvanu && install -m 644 -t /etc/systemd/system service/deploy/*.service service/deploy/*.timer
relkvanu setup-tls relkvanu.example --self-signed
systemctl daemon-reload && systemctl enable --now relkvanu

# trust: Lets the programs of the service's machine trust the certificate that it has signed itself.
install -Dm 644 /etc/relkvanu/certificate.pem /usr/local/share/ca-certificates/relkvanu.crt
update-ca-certificates
echo 127.0.0.1 relkvanu.example >> /etc/hosts

# clean: Sets the cleaner of all jobs up, on a machine that reaches their files, which are of the user orders below /srv.
mkdir -p /etc/systemd/system/relkvanu-clean.service.d
printf '[Service]\nUser=orders\nReadWritePaths=/srv\n' > /etc/systemd/system/relkvanu-clean.service.d/files.conf
systemctl daemon-reload && systemctl enable --now relkvanu-clean

# put-back: Puts a backup in the place of the database, which is set aside.
systemctl disable --now relkvanu relkvanu-clean relkvanu-backup.timer     # on each machine of the service
relkvanu put-back copy.db --database $DATABASE
echo RELKVANU_OPTIONS=--accept-clock > /run/relkvanu.options && systemctl enable --now relkvanu     # on each

# from-backup: Brings a job back, over a backup that was put in place.
relkvanu restore orders --from-backup $FILES     # once for each job
echo RELKVANU_OPTIONS=--allow-absent > /run/relkvanu-clean.options
systemctl enable --now relkvanu-clean relkvanu-backup.timer

# lost: An empty database in the place of one that is lost, which is set aside.
systemctl disable --now relkvanu relkvanu-clean relkvanu-backup.timer     # on each machine of the service
relkvanu put-back --none --database $DATABASE
systemctl enable --now relkvanu                                           # on each

# recover: Makes a job again of its manifests, over an empty database.
relkvanu records orders $FILES     # which checkpoints are whole?
relkvanu recover orders $FILES     # once for each job
systemctl enable --now relkvanu-clean relkvanu-backup.timer

# try-restore: Tries a restore of the newest backup next to the running service. Nothing may use the address 127.0.0.1:7799.
systemd-run --unit=relkvanu-try -p Type=notify -p PrivateTmp=yes -p TimeoutStartSec=infinity sh -c 'relkvanu put-back "$1" --database /var/tmp/relkvanu.db && exec relkvanu serve --database /var/tmp/relkvanu.db --listen 127.0.0.1:7799 --accept-clock' sh "$(ls -1 /var/backups/relkvanu/*Z.db | tail -n 1)"
relkvanu savepoints orders --within 300 $FILES --url http://127.0.0.1:7799
systemctl stop relkvanu-try

# upgrade: Puts another program in place, relkvanu-new.
./relkvanu-new check --database $DATABASE     # nothing changes
systemctl stop relkvanu && relkvanu backup --database $DATABASE --to before-upgrade.db
install relkvanu-new /usr/local/bin/relkvanu && systemctl start relkvanu

# other-machine: The service on another machine, with the old disk below /mnt.
relkvanu backup --database /mnt/var/lib/relkvanu/relkvanu.db --to copy.db
relkvanu put-back copy.db --database $DATABASE
systemctl enable --now relkvanu relkvanu-clean relkvanu-backup.timer

# older: Replaces the older state of a job, which a backup had, by the manifests.
relkvanu cancel orders
relkvanu delete orders --abandon
relkvanu recover orders $FILES

# look: Says why the service has ended, whether the disks are mounted, and which checkpoints have manifests. It changes nothing.
journalctl -u relkvanu -n 50             # why did it end?
ls -la /var/lib/relkvanu/ /srv/orders/   # are the disks mounted?
relkvanu records orders $FILES           # which checkpoints have manifests?

# damaged: Makes a damaged job again of its manifests, in a second service. The first one serves the others.
systemctl stop relkvanu-clean
systemctl cat relkvanu | sed -E 's,(StateDirectory=|%[St]/)relkvanu,&-second,g; s,--config [^ ]+,--listen 127.0.0.1:7781,' > /etc/systemd/system/relkvanu-second.service
systemctl enable --now relkvanu-second && relkvanu recover orders $FILES --url http://127.0.0.1:7781

# missing: Goes back to a savepoint that has all its files.
relkvanu savepoints orders $FILES     # column ABSENT
relkvanu restore orders --savepoint 12 $FILES

# from-export: Begins a job from an export, in a new folder.
install -d -o orders /srv/new
relkvanu import /srv/export/orders orders --folder /srv/new/orders --prefix state- --suffix .bin     # or --all /srv/export, --folder '/srv/new/{job}'

# cancelled: Begins another job from a savepoint of a job that was cancelled.
install -d -o orders /srv/orders-2
relkvanu export orders /srv/export --record 12 $FILES
relkvanu import /srv/export orders-2 --folder /srv/orders-2 --prefix state- --suffix .bin
