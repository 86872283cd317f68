#!/usr/bin/env python3
"""What the program `utilisation` must write, reckoned apart: `reckoning/utilisation.py > crates/utilisation/stdout`."""

from rules import CappedSteel, CarbonSteel, Member, gas_flux, gauge_flux, shaded

# EN 1993-1-2, Table 4.1: critical temperatures at utilisations from 0.22 to 0.80 by 0.02
TABLE_4_1 = [
    711, 698, 685, 674, 664, 654, 645, 636, 628, 620,
    612, 605, 598, 591, 585, 578, 572, 566, 560, 554,
    549, 543, 537, 531, 526, 520, 514, 508, 502, 496,
]

steel = CarbonSteel()
tie = Member(235, 1_000_000)
strut = Member(235, 1_000_000, 2_000_000)
class4 = CappedSteel(steel, 351)



def shown(degree):
    return "none" if degree < 20 else degree


print("Critical temperatures in degrees Celsius, carbon steel, f = 235 MPa")
print("(strut: ideal buckling load twice the cold strength; class 4: that strut, capped at 351)")
print()
print("utilisation  Table 4.1   tie  difference  strut  class 4")
differences = []
for i, tabled in enumerate(TABLE_4_1):
    hundredths = 22 + 2 * i
    load = hundredths * 10_000
    here = tie.critical(steel, load)
    differences.append(here - tabled)
    print(f"{hundredths / 100:11.2f}  {tabled:9}  {here:4}  {here - tabled:+10}  {shown(strut.critical(steel, load)):>5}  {shown(strut.critical(class4, load)):>7}")
print()
print(f"The tie lies from {-min(differences)} below to {max(differences)} above the table.")
print()
print("Net heat flux in W/m2 by gas temperature, onto steel at 20 and at 600 degrees, bare and with a shading of 0.900")
print()
print(" gas  bare 20  shaded 20  bare 600  shaded 600")
for gas in range(100, 1201, 100):
    cold, hot = gas_flux(gas, 20), gas_flux(gas, 600)
    print(f"{gas:4}  {cold:7}  {shaded(cold, 900):9}  {hot:8}  {shaded(hot, 900):10}")
print()
print("Carbon steel: factors in ten-thousandths, heat capacity in J/(kg K)")
print()
print("degree  strength  stiffness  capacity")
for degree in (20, 150, 450, 500, 550, 599, 600, 650, 734, 735, 850, 899, 900, 950, 1150, 1200):
    print(f"{degree:6}  {steel.strength(degree):8}  {steel.stiffness(degree):9}  {steel.capacity(degree):8}")
print()
print("Gauge record 8001 7FFF 03E8 FFFD 8000: net heat flux in W/m2")
print()
print("step     flux")
record = bytes.fromhex("80017FFF03E8FFFD8000")
for step in range(6):
    pair = record[2 * step : 2 * step + 2]
    flux = "ended" if not pair else gauge_flux(*pair)
    print(f"{step:4}  {'missing' if flux is None else flux:>7}")
