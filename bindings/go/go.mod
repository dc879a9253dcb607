// The package has no other dependency. It has no host yet, so an engine names its folder by a replace line.
module relkvanu

go 1.19
