
// Added to the copied module by oracle/build: what the drivers s3w2_script.rs and s3w2_log.rs need of its private fields.
impl Channel {
    pub fn is_on(&self) -> bool {
        self.active
    }

    /// The fields of a D line: the state, the cache, then wavetable, queue and decoded fragments.
    pub fn shown(&self) -> Vec<i128> {
        let mut f: Vec<i128> = vec![
            self.frequency.into(), self.waveform_type as i128, self.volume.into(), self.panpot.into(),
            self.modulation_type as i128, self.modulation_target.into(), self.modulation_targeting_mode.into(),
            self.modulation_param_1.into(), self.modulation_param_2.into(), self.pcm_start_addr.into(),
            self.pcm_end_addr.into(), self.pcm_loop_addr.into(), self.pcm_control.into(), self.sample_control.into(),
            self.active.into(), self.phase.into(), self.old_phase.into(), self.lfsr_state.into(),
            self.last_sample.into(), self.slew_current.into(), self.fifo_held.into(), self.fifo_hold.into(),
            self.fifo_sub.into(), self.fifo_latch.into(),
        ];
        let half = |c: Option<usize>| c.map_or(0, |x| x as i128 + 1);
        f.extend([
            self.sqv4_validated.into(), self.sqv4_version.into(), self.sqv4_variant.map_or(0, |v| v as i128 + 1),
            self.sqv4_sample_count as i128, self.sqv4_frame_samples as i128, self.sqv4_frame_size as i128,
            self.sqv4_loop_sample as i128, half(self.sqv4_cached_frame[0]), half(self.sqv4_cached_frame[1]),
            self.sqv4_next_frame as i128, self.sqv4_decoder.predictor.into(), self.sqv4_decoder.index as i128,
        ]);
        f.extend(self.wavetable.iter().map(|&b| i128::from(b)));
        f.push(self.fifo.len() as i128);
        f.extend(self.fifo.iter().take(2048).map(|&s| i128::from(s)));
        f.extend(self.sqv4_frame.iter().flatten().map(|&s| i128::from(s)));
        f
    }

    /// The fields of an E line after the channel, up to the latch.
    pub fn set_state(&mut self, f: &[i128]) {
        self.frequency = f[0] as u16;
        self.waveform_type = WaveformType::from(f[1] as u8);
        self.volume = f[2] as u8;
        self.panpot = f[3] as u8;
        self.modulation_type = ModulationType::from(f[4] as u8);
        self.modulation_target = f[5] as u8;
        self.modulation_targeting_mode = f[6] as u8;
        self.modulation_param_1 = f[7] as u16;
        self.modulation_param_2 = f[8] as u16;
        self.pcm_start_addr = f[9] as u32;
        self.pcm_end_addr = f[10] as u32;
        self.pcm_loop_addr = f[11] as u32;
        self.pcm_control = f[12] as u8;
        self.sample_control = f[13] as u8;
        self.active = f[14] != 0;
        self.phase = f[15] as u64;
        self.old_phase = f[16] as u64;
        self.lfsr_state = f[17] as u32;
        self.last_sample = f[18] as i16;
        self.slew_current = f[19] as i32;
        self.fifo_held = f[20] as i16;
        self.fifo_hold = f[21] as u32;
        self.fifo_sub = f[22] as u8;
        self.fifo_latch = f[23] as u8;
    }

    /// The fields of an F line after the channel, with the decoded fragments.
    pub fn set_cache(&mut self, f: &[i128], samples: &[i16]) {
        let half = |x: i128| if x == 0 { None } else { Some(x as usize - 1) };
        self.sqv4_validated = f[0] != 0;
        self.sqv4_version = f[1] as u8;
        self.sqv4_variant = if f[2] == 0 { None } else { Some(Sqv4Variant::try_from(f[2] as u8 - 1).unwrap()) };
        self.sqv4_sample_count = f[3] as usize;
        self.sqv4_frame_samples = f[4] as usize;
        self.sqv4_frame_size = f[5] as usize;
        self.sqv4_loop_sample = f[6] as usize;
        self.sqv4_cached_frame = [half(f[7]), half(f[8])];
        self.sqv4_next_frame = f[9] as usize;
        self.sqv4_decoder.predictor = f[10] as i32;
        self.sqv4_decoder.index = f[11] as usize;
        for (i, &s) in samples.iter().enumerate() {
            self.sqv4_frame[i / 64][i % 64] = s;
        }
    }

    /// An accepted state, but for the queue's head and count.
    pub fn is_accepted(&self, version: SguVersion, ram: Option<usize>) -> bool {
        let fifo_dac = self.waveform_type == WaveformType::FifoDac;
        (0..=65280).contains(&self.slew_current)
            && self.fifo_sub <= 3
            && self.fifo_hold <= 65535
            && self.modulation_target <= 7
            && self.modulation_targeting_mode <= 1
            && self.sample_control <= 7
            && self.old_phase < 1 << 35
            && [self.pcm_start_addr, self.pcm_end_addr, self.pcm_loop_addr].iter().all(|&a| a < 1 << 24)
            && !(matches!(version, SguVersion::V1 | SguVersion::V2) && (fifo_dac || self.is_queued()))
            && (!self.sqv4_validated || self.is_cache_accepted(ram))
    }

    /// Whether anything was pushed, held or latched.
    pub fn is_queued(&self) -> bool {
        self.fifo_held != 0 || self.fifo_hold != 0 || self.fifo_sub != 0 || self.fifo_latch != 0 || !self.fifo.is_empty()
    }

    fn is_cache_accepted(&self, ram: Option<usize>) -> bool {
        let (start, end) = (self.pcm_start_addr as usize, self.pcm_end_addr as usize);
        let Some(variant) = self.sqv4_variant else { return false };
        let bits = if variant == Sqv4Variant::H { 4 } else { 3 };
        let (per, size) = match self.sqv4_version {
            1 | 2 => (64, 1 + 8 * bits),
            3 => (63, 2 + 8 * bits),
            _ => return false,
        };
        let frames = self.sqv4_sample_count.div_ceil(per);
        let length = frames as u128 * size as u128 + 16;
        self.waveform_type == WaveformType::Sqv4
            && start < end
            && ram.is_none_or(|n| end <= n)
            && self.sqv4_frame_samples == per
            && self.sqv4_frame_size == size
            && length == (end - start) as u128
            && (self.sqv4_loop_sample == 0
                || (self.sqv4_loop_sample % per == 0 && self.sqv4_loop_sample / per < frames))
            && self.sqv4_decoder.index <= 88
            && i16::try_from(self.sqv4_decoder.predictor).is_ok()
            && self.sqv4_cached_frame.iter().enumerate().all(|(parity, c)| c.is_none_or(|f| f % 2 == parity && f < frames))
            && self.sqv4_next_frame <= frames
    }
}

impl S3w2Sound {
    /// Whether a voice's cache holds anything else than a new `initialize_sqv4` and decoding would give.
    pub fn is_stale(&mut self, ch: usize) -> bool {
        let held = self.channels[ch].clone();
        if !held.sqv4_validated {
            return false;
        }
        self.channels[ch].invalidate_sqv4();
        let taken = self.initialize_sqv4(ch);
        let mut new = self.channels[ch].clone();
        let numbers = |c: &Channel| {
            let (n, size) = (c.sqv4_sample_count, c.sqv4_frame_size);
            (c.sqv4_version, c.sqv4_variant, n, c.sqv4_frame_samples, size, c.sqv4_loop_sample)
        };
        let mut same = taken && held.waveform_type == WaveformType::Sqv4 && numbers(&held) == numbers(&new);
        let start = held.pcm_start_addr as usize;
        let ram = self.pcm_ram.borrow();
        for frame in held.sqv4_cached_frame.iter().flatten().copied().filter(|_| same).collect::<Vec<_>>() {
            Self::ensure_sqv4_frame(&mut new, &ram, start, frame);
            let n = (held.sqv4_sample_count - frame * held.sqv4_frame_samples).min(held.sqv4_frame_samples);
            same = same && new.sqv4_frame[frame & 1][..n] == held.sqv4_frame[frame & 1][..n];
        }
        if same && held.sqv4_version != sqv4::VERSION && held.sqv4_next_frame > 0 {
            let mut again = new.clone();
            again.sqv4_cached_frame = [None; 2];
            again.sqv4_next_frame = 0;
            again.sqv4_decoder = Sqv4State::default();
            Self::ensure_sqv4_frame(&mut again, &ram, start, held.sqv4_next_frame - 1);
            let state = |c: &Channel| (c.sqv4_decoder.predictor, c.sqv4_decoder.index);
            same = state(&again) == state(&held);
        }
        drop(ram);
        self.channels[ch] = held;
        !same
    }
}
