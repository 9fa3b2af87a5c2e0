//! The peer's loop: what comes from QEMU and what is ordered on standard input, one after another.

use crate::bus::{Bus, Ended};
use crate::collector::{Collector, Identity};
use crate::log::Log;
use crate::medium;
use crate::redir::{self, Packet, Status};
use crate::switch::Turn;
use std::io::{self, BufRead, Write};
use std::num::NonZeroUsize;
use std::os::unix::net::UnixStream;
use std::sync::mpsc::{self, Sender};
use std::thread;

enum Input {
    Packet(Packet),
    Order(String),
    /// QEMU has closed its socket, or the orders have ended.
    End,
}

struct Peer {
    stream: UnixStream,
    log: Log,
    bus: Option<Bus>,
    medium: Vec<u8>,
    /// The turns of the next device's switches, before it is plugged in.
    turns: Vec<Turn>,
    /// An unplugging is done once QEMU has said that it saw it: then no transfer of the old device is on its way any more.
    unplugging: bool,
}

pub fn serve(socket: &str, path: &str, start: &str) -> io::Result<()> {
    let start = start.parse().map_err(|_| io::Error::other("START is a number of seconds"))?;
    let mut stream = UnixStream::connect(socket)?;
    redir::greet(&mut stream)?;
    let (sender, receiver) = mpsc::channel();
    read_packets(stream.try_clone()?, sender.clone());
    read_orders(sender);
    let log = Log::new(path, start)?;
    let mut peer = Peer { stream, log, bus: None, medium: vec![], turns: vec![], unplugging: false };
    for input in receiver {
        match input {
            Input::Packet(packet) => peer.packet(packet)?,
            Input::Order(line) => peer.order(&line)?,
            Input::End => break,
        }
    }
    peer.log.flush();
    match peer.bus.and_then(|bus| bus.refused) {
        Some((number, count)) => {
            Err(io::Error::other(format!("the device refused an event with {number}, count {count}")))
        }
        None => Ok(()),
    }
}

fn read_packets(mut stream: UnixStream, sender: Sender<Input>) {
    thread::spawn(move || {
        while let Ok(packet) = redir::read(&mut stream) {
            if sender.send(Input::Packet(packet)).is_err() {
                return;
            }
        }
        let _ = sender.send(Input::End);
    });
}

fn read_orders(sender: Sender<Input>) {
    thread::spawn(move || {
        for line in io::stdin().lock().lines().map_while(Result::ok) {
            if sender.send(Input::Order(line)).is_err() {
                return;
            }
        }
        let _ = sender.send(Input::End);
    });
}

fn say(text: &str) -> io::Result<()> {
    let mut out = io::stdout().lock();
    writeln!(out, "{text}")?;
    out.flush()
}

fn sizes(words: &[&str]) -> Result<Vec<u32>, String> {
    words.iter().map(|word| word.parse().map_err(|_| format!("{word} is no number of blocks"))).collect()
}

impl Peer {
    fn order(&mut self, line: &str) -> io::Result<()> {
        let words: Vec<&str> = line.split(' ').collect();
        let outcome = match words[..] {
            ["load", path] => self.load(path),
            ["plug", number, vendor, product, release, ref units @ ..] => {
                sizes(units).and_then(|sizes| self.plug(number, vendor, product, release, &sizes))
            }
            ["unplug"] if self.bus.is_some() => return self.unplug(),
            ["switch", position, unit] => Turn::named(position, unit).and_then(|turn| self.switch(turn)),
            ["switch", position, unit, "after", packets] => {
                Turn::named(position, unit).and_then(|turn| self.switch_after(turn, packets))
            }
            ["save", path] => {
                self.log.note(&format!("saved {path}"));
                let medium = self.bus.as_ref().map_or(&self.medium[..], Bus::medium);
                medium::save(path, medium).map_err(|fault| fault.to_string())
            }
            _ => Err("no such order now".into()),
        };
        match outcome {
            Ok(()) => say("done"),
            Err(why) => say(&format!("failed {why}")),
        }
    }

    fn load(&mut self, path: &str) -> Result<(), String> {
        if self.bus.is_some() {
            return Err("a device is plugged in".into());
        }
        self.medium = medium::load(path).map_err(|fault| fault.to_string())?;
        self.log.note(&format!("loaded {path}"));
        Ok(())
    }

    fn plug(
        &mut self,
        number: &str,
        vendor: &str,
        product: &str,
        release: &str,
        sizes: &[u32],
    ) -> Result<(), String> {
        if self.bus.is_some() {
            return Err("a device is plugged in".into());
        }
        let hex = |word| u16::from_str_radix(word, 16).map_err(|_| format!("{word} is no number"));
        let number = number.parse().map_err(|_| format!("{number} is no number"))?;
        let identity =
            Identity { number, vendor: hex(vendor)?, product: hex(product)?, release: hex(release)? };
        match Collector::make(identity, sizes, std::mem::take(&mut self.medium)) {
            Ok(device) => {
                self.log.plugged(identity, sizes);
                let mut bus = Bus::new(device);
                let turned = self.turns.drain(..).try_for_each(|turn| bus.switch(turn, &mut self.log));
                self.bus = Some(bus);
                turned?;
                let connect = redir::device_connect(identity.vendor, identity.product, identity.release);
                self.tell(redir::INTERFACE_INFO, 0, &redir::interface_info())
                    .and_then(|()| self.tell(redir::EP_INFO, 0, &redir::ep_info()))
                    .and_then(|()| self.tell(redir::DEVICE_CONNECT, 0, &connect))
                    .map_err(|fault| fault.to_string())
            }
            Err((refused, medium)) => {
                self.medium = medium;
                let units: Vec<String> = sizes.iter().map(u32::to_string).collect();
                Err(format!("making over {} blocks was refused with {refused}", units.join(" and ")))
            }
        }
    }

    fn switch(&mut self, turn: Turn) -> Result<(), String> {
        match &mut self.bus {
            Some(bus) => bus.switch(turn, &mut self.log),
            None => {
                self.turns.push(turn);
                Ok(())
            }
        }
    }

    fn switch_after(&mut self, turn: Turn, packets: &str) -> Result<(), String> {
        let packets: NonZeroUsize =
            packets.parse().map_err(|_| format!("{packets} is no number of packets"))?;
        let bus = self.bus.as_mut().ok_or("no device is plugged in")?;
        bus.switch_after(turn, packets.get());
        Ok(())
    }

    fn unplug(&mut self) -> io::Result<()> {
        self.unplugging = true;
        self.tell(redir::DEVICE_DISCONNECT, 0, &[])
    }

    fn unplugged(&mut self) -> io::Result<()> {
        if let Some(bus) = self.bus.take() {
            self.log.note("unplugged");
            let refused = bus.refused;
            self.medium = bus.into_medium();
            if let Some((number, count)) = refused {
                return say(&format!("failed the device refused an event with {number}, count {count}"));
            }
        }
        say("done")
    }

    fn tell(&mut self, kind: u32, id: u64, body: &[u8]) -> io::Result<()> {
        redir::write(&mut self.stream, kind, id, body)
    }

    fn packet(&mut self, packet: Packet) -> io::Result<()> {
        if packet.kind == redir::DEVICE_DISCONNECT_ACK && self.unplugging {
            self.unplugging = false;
            return self.unplugged();
        }
        let Some(mut bus) = self.bus.take() else {
            return Ok(()); // meant for a device that is gone
        };
        let outcome = self.transfer(&mut bus, packet);
        self.bus = Some(bus);
        outcome
    }

    fn transfer(&mut self, bus: &mut Bus, packet: Packet) -> io::Result<()> {
        let id = packet.id;
        match packet.kind {
            redir::RESET => {
                for ended in bus.reset(&mut self.log) {
                    self.ended(ended)?;
                }
            }
            // Four requests have packets of their own in this protocol; for the device they are requests as any other.
            redir::SET_CONFIGURATION => {
                let value = packet.body[0];
                let (status, _) = self.request(bus, [0x00, 0x09, value, 0, 0, 0, 0, 0]);
                self.tell(redir::CONFIGURATION_STATUS, id, &[status as u8, value])?;
            }
            redir::GET_CONFIGURATION => {
                let (status, data) = self.request(bus, [0x80, 0x08, 0, 0, 0, 0, 1, 0]);
                let value = data.first().copied().unwrap_or(0);
                self.tell(redir::CONFIGURATION_STATUS, id, &[status as u8, value])?;
            }
            redir::SET_ALT_SETTING => {
                let (interface, alt) = (packet.body[0], packet.body[1]);
                let (status, _) = self.request(bus, [0x01, 0x0B, alt, 0, interface, 0, 0, 0]);
                self.tell(redir::ALT_SETTING_STATUS, id, &[status as u8, interface, alt])?;
            }
            redir::GET_ALT_SETTING => {
                let interface = packet.body[0];
                let (status, data) = self.request(bus, [0x81, 0x0A, 0, 0, interface, 0, 1, 0]);
                let alt = data.first().copied().unwrap_or(0);
                self.tell(redir::ALT_SETTING_STATUS, id, &[status as u8, interface, alt])?;
            }
            redir::CONTROL_PACKET => {
                let asked = redir::control(&packet.body);
                let (status, data) = bus.control(&asked, &mut self.log);
                self.tell(redir::CONTROL_PACKET, id, &redir::control_answer(&asked, status, &data))?;
            }
            redir::BULK_PACKET => bus.begin(id, redir::bulk(&packet.body)),
            redir::CANCEL_DATA_PACKET => {
                if let Some(ended) = bus.cancel(id, &mut self.log) {
                    self.ended(ended)?;
                }
            }
            other => self.log.note(&format!("usbredir packet {other}, not for this device")),
        }
        for ended in bus.go_on(&mut self.log) {
            self.ended(ended)?;
        }
        Ok(())
    }

    fn request(&mut self, bus: &mut Bus, setup: [u8; 8]) -> (Status, Vec<u8>) {
        bus.control(&redir::Control { endpoint: 0, setup }, &mut self.log)
    }

    fn ended(&mut self, ended: Ended) -> io::Result<()> {
        let Ended { transfer, status } = ended;
        let body = redir::bulk_answer(&transfer.asked, status, transfer.done, &transfer.data);
        self.tell(redir::BULK_PACKET, transfer.id, &body)
    }
}
