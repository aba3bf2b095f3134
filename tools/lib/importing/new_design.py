"""The texts with which a design begins."""

DESIGN = """\
-- A sensor reads an input twice in a round, and a controller sets an output once.
package NAME
public
 with Base_Types;
 with PALS_Profile;

 thread Sensor
 features
  raw: in data port Base_Types::Integer;
  smooth: out data port Base_Types::Integer;
 properties
  Dispatch_Protocol => Periodic;
 end Sensor;

 thread implementation Sensor.impl
 annex behavior_specification {**
  variables
   last: Base_Types::Integer;
  states
   reading: initial complete state;
  transitions
   reading -[on dispatch]-> reading {if (raw'fresh) last := (last + raw) / 2 end if; smooth!(last)};
 **};
 end Sensor.impl;

 thread Controller
 features
  level: in data port Base_Types::Integer;
  valve: out data port Base_Types::Boolean;
 properties
  Dispatch_Protocol => Periodic;
 end Controller;

 thread implementation Controller.impl
 annex behavior_specification {**
  states
   closed: initial complete state;
   open: complete state;
   deciding: state;
  transitions
   closed -[on dispatch]-> deciding;
   open -[on dispatch]-> deciding;
   deciding -[level > 100]-> open {valve!(true)};
   deciding -[otherwise]-> closed {valve!(false)};
 **};
 end Controller.impl;

 process Control
 features
  raw: in data port Base_Types::Integer;
  valve: out data port Base_Types::Boolean;
 end Control;

 process implementation Control.impl
 subcomponents
  sensor: thread Sensor.impl {Period => 25 ms;};
  controller: thread Controller.impl;
 connections
  c1: port raw -> sensor.raw;
  c2: port sensor.smooth -> controller.level {Timing => Delayed; PALS_Profile::Input_Adaptor => "latest";};
  c3: port controller.valve -> valve;
 end Control.impl;

 system Top
 features
  raw: in data port Base_Types::Integer;
  valve: out data port Base_Types::Boolean;
 end Top;

 system implementation Top.impl
 subcomponents
  p: process Control.impl;
 connections
  d1: port raw -> p.raw {PALS_Profile::Input_Adaptor => "first";};
  d2: port p.valve -> valve;
 properties
  Period => 50 ms;
  -- Clocks differ from the time by less than this.
  PALS_Profile::Skew => 1 ms;
  -- The execution time of one step, and the time of a message.
  PALS_Profile::Execution => 0 ms .. 5 ms;
  PALS_Profile::Network => 1 ms .. 10 ms;
 end Top.impl;
end NAME;
"""
SCENARIO = """\
{
  "rounds": 10,
  "inputs": {
    "raw": [80, 90, 120, 150, 160, 140, 100, 60, 40, 30]
  },
  "properties": {
    "bounded": ["var", "p.sensor", "last", "<=", 160]
  }
}
"""
