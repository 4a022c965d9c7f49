//! The standard chain: transmitter, channel and receiver between a signal and a gain recording.

use crate::item::{ConverterSample, GainIndex};
use crate::settings::{GainSetting, Settings};
use crate::source::{Noise, Source};
use crate::stages::{
    AddingNoise, Amplifier, AmplifierTable, ClockOffset, Converter, DcOffset, Each, FrequencyOffset, Gain, Imbalance,
    Lead, Multipath, Pairing, ReceiveGain, Scaling,
};

impl From<GainSetting> for Gain {
    fn from(setting: GainSetting) -> Self {
        Gain::new(setting.shift, setting.factor)
    }
}

/// The chain over its two inputs. Later changes of the settings do not reach it.
pub fn standard_chain<S, G>(settings: &Settings, signal: S, gains: G) -> impl Source<Item = ConverterSample>
where
    S: Source<Item = ConverterSample>,
    G: Source<Item = GainIndex>,
{
    let (re, im) = settings.tx_dc;
    let (a, b, c) = settings.tx_imbalance;
    let amplifier = match settings.amplifier_bypass {
        true => Amplifier::Bypassed,
        false => Amplifier::on(AmplifierTable::new(&settings.amplitudes, &settings.phases)),
    };
    let x = Each::new(Scaling { factor: settings.scale.into() }, signal);
    let x = Each::new(DcOffset { re, im }, x);
    let x = Each::new(Imbalance { a, b, c }, x);
    let x = Each::new(amplifier, x);
    let x = Multipath::new(settings.paths.clone(), x);
    let x = FrequencyOffset::new(settings.frequency, x);
    let x = match settings.clock_bypass {
        true => ClockOffset::bypassed(x),
        false => ClockOffset::new(settings.clock, x),
    };
    let x = Each::new(Gain::from(settings.gain), x);
    let x = Each::new(AddingNoise, Pairing::new(x, Noise::new(settings.seeds, u32::MAX)));
    let indices = Lead::new(GainIndex::nearest(0), settings.lead, gains);
    let x = Each::new(ReceiveGain { gains: settings.receive_gains.map(Gain::from) }, Pairing::new(x, indices));
    let (re, im) = settings.rx_dc;
    let (a, b, c) = settings.rx_imbalance;
    let x = Each::new(DcOffset { re, im }, x);
    let x = Each::new(Imbalance { a, b, c }, x);
    Each::new(Converter, x)
}
