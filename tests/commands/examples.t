What scripts print stands beside them in a .trace, what they draw in an .svg.

  $ ls examples/*.trace examples/*.svg
  examples/half_rate.trace
  examples/handover_arrives.trace
  examples/handover_between.svg
  examples/handover_between.trace
  examples/handover_reported.trace
  examples/handover_returns.svg
  examples/handover_returns.trace
  examples/handover_undone.trace
  examples/real_stations.svg
  examples/real_stations.trace
  examples/station_stutters.svg
  examples/station_stutters.trace
  $ ./lab run examples/half_rate.toml examples/half_rate.txt >printed
  $ diff examples/half_rate.trace printed
  $ ./lab run examples/two_cells.toml examples/handover_arrives.txt >printed
  $ diff examples/handover_arrives.trace printed
  $ ./lab run examples/two_cells.toml examples/handover_reported.txt >printed
  $ diff examples/handover_reported.trace printed
  $ ./lab run examples/two_cells.toml examples/handover_returns.txt --chart chart.svg >printed
  $ diff examples/handover_returns.trace printed
  $ diff examples/handover_returns.svg chart.svg
  $ ./lab run examples/two_cells.toml examples/handover_undone.txt >printed
  $ diff examples/handover_undone.trace printed
  $ ./lab run examples/two_cells.toml examples/handover_between.txt --peer examples/one_cell.toml --chart chart.svg >printed
  $ diff examples/handover_between.trace printed
  $ diff examples/handover_between.svg chart.svg
  $ ./lab run examples/two_cells.toml examples/station_stutters.txt --chart chart.svg >printed
  $ diff examples/station_stutters.trace printed
  $ diff examples/station_stutters.svg chart.svg
  $ ./lab run bridge/demo.toml examples/real_stations.txt --chart chart.svg >printed
  $ diff examples/real_stations.trace printed
  $ diff examples/real_stations.svg chart.svg
