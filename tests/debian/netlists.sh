# Netlists of an example that comes with the package.
export GUILE_AUTO_COMPILE=0
cd /usr/share/doc/lepton-eda/examples/TwoStageAmp || exit 1
for backend in geda spice-sdb bom; do lepton-netlist -q -g "$backend" -o - TwoStageAmp.sch; done
