// ns a pair: read, read_from_in in lists of 1,024, next_in; first pairs from a random id beside a look-up
#include "signalfern.h"
#include <stdio.h>
#include <stdlib.h>
#include <string.h>
#include <time.h>
static double now(void){struct timespec t;clock_gettime(CLOCK_MONOTONIC,&t);return t.tv_sec*1e9+t.tv_nsec;}
static uint64_t draw(uint64_t s,uint64_t i){uint64_t z=(i+1)*0x9E3779B97F4A7C15ull+s*0xD1B54A32D192ED03ull;z=(z^(z>>30))*0xBF58476D1CE4E5B9ull;z=(z^(z>>27))*0x94D049BB133111EBull;return z^(z>>31);}
static uint32_t density(const char*k,uint32_t b){switch(k[0]){case 's':return 655;case 'd':return 19661;case 'f':return 65536;default:{static const uint32_t mx[8]={655,19661,65536,0,3277,52429,33,6554};return mx[b%8];}}}
int main(int argc,char**argv){
  const char*kind=argv[1];int ed=atoi(argv[2]);uint32_t limit=argc>3?(uint32_t)atoi(argv[3]):1u<<22;
  uint32_t*ids=malloc(4ull*limit);int64_t*vs=malloc(8ull*limit);size_t n=0;
  for(uint32_t i=0;i<limit;i++) if((draw(1,i)>>48)<density(kind,i>>16)){ids[n]=i;vs[n]=ed==4?(int64_t)(draw(2,n)%200)*1000000007:(int64_t)(draw(2,n)>>52)*7-9000;n++;}
  size_t cap=signalfern_write(ids,n,vs,n,ed,9,NULL,0).number;uint8_t*c=malloc(cap);
  signalfern_reply w=signalfern_write(ids,n,vs,n,ed,9,c,cap);if(w.refusal){printf("refused %lu\n",w.refusal);return 1;}
  signalfern_column col=signalfern_open(c,cap);
  uint32_t*ri=malloc(4*n);int64_t*rv=malloc(8*n);static uint32_t bi[4096];static int64_t bv[4096];
  double read=1e30,from=1e30,next=1e30,first=1e30,look=1e30,first1=1e30,fl=1e30;
  int rooms=1024; uint64_t sum=0;
  uint32_t hits[4096]; for(int i=0;i<4096;i++) hits[i]=ids[draw(5,i)%n];
  for(int r=0;r<15;r++){
    double t=now();signalfern_read(c,cap,ri,n,rv,n);t=(now()-t)/n;if(t<read)read=t;
    t=now();uint64_t id=0;size_t m=0;for(;;){signalfern_readout o;signalfern_read_from_in_to(&col,c,cap,(uint32_t)id,bi,rooms,bv,rooms,&o);
      if(o.kind>1){puts("refused");return 1;} if(r==0){if(memcmp(bi,ids+m,4*o.count)||memcmp(bv,vs+m,8*o.count)){puts("differs");return 1;}}
      m+=o.count; if(o.kind==1)break; id=bi[o.count-1]+1ull;} if(m!=n){puts("count");return 1;}
    t=(now()-t)/n;if(t<from)from=t;
    if(r<3){t=now();signalfern_candidate x;uint64_t last=0,q=0;size_t k=0;while(k<200000){signalfern_next_in_to(&col,last,c,cap,(uint32_t)q,&x);if(x.kind)break;last=x.cursor.last;q=x.id+1;k++;if(q>2147352575u)break;}t=(now()-t)/k;if(t<next)next=t;}
    t=now();for(int i=0;i<4096;i++){signalfern_answer a;signalfern_look_up_in_to(&col,c,cap,hits[i],&a);sum+=a.value;}t=(now()-t)/4096;if(t<look)look=t;
    t=now();for(int i=0;i<4096;i++){signalfern_answer a;signalfern_look_up_to(c,cap,hits[i],&a);sum+=a.value;}t=(now()-t)/4096;if(t<fl)fl=t;
    t=now();for(int i=0;i<4096;i++){signalfern_readout o;signalfern_read_from_in_to(&col,c,cap,hits[i],bi,1,bv,1,&o);sum+=bv[0];}t=(now()-t)/4096;if(t<first1)first1=t;
    t=now();for(int i=0;i<4096;i++){signalfern_readout o;signalfern_read_from_in_to(&col,c,cap,hits[i],bi,8,bv,8,&o);sum+=bv[0];}t=(now()-t)/4096;if(t<first)first=t;
  }
  printf("%s ed %d n %zu: read %.2f from %.2f (%.2f) next %.1f | look_in %.1f look %.1f first1 %.1f (%.2f) first8 %.1f (%.2f) %lu\n",kind,ed,n,read,from,from/read,next,look,fl,first1,first1/look,first,first/look,sum&1);
}
